"""The parts of tests/documents: reading of Markdown, running of blocks, and checks of links, codes and lengths."""
