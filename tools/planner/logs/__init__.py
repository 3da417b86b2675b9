"""Reads logs and traces of many formats as requests: packed files (unpack), which format a file has (detect), each format's lines
(combined, servers, json_lines, columns), a file (sources), several by time (reading), and with lengths for a trace (traced)."""
