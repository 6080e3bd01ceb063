"""Has bw answer statements: processes of bw, and the files of a table as one."""
