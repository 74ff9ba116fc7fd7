"""Pictures of what happens over time, with lines on axes and marks below: as a page to zoom in, or as PNG and SVG."""
