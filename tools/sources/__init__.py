"""Sources, read as the program reads them: lines and fields, headings, values, columns, times, and the rows that a run takes."""
