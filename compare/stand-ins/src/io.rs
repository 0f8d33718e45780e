// Stand-in: this file is not among the sources given. Written from document 01, for the comparison alone.
