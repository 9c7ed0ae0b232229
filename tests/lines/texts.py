"""Moments, and the bytes of lines. Written by hand from docs/COMMANDS.md and docs/FORMATS.md."""

# A moment, and one that is a second earlier.
MOMENTS = [
    ("1970-01-01T00:00:00Z", "1969-12-31T23:59:59Z"),
    ("1969-12-31T23:59:59Z", "1969-12-31T23:59:58Z"),
    ("2024-03-01T00:00:00Z", "2024-02-29T23:59:59Z"),
    ("2000-03-01T00:00:00Z", "2000-02-29T23:59:59Z"),
    ("1900-03-01T00:00:00Z", "1900-02-28T23:59:59Z"),
    ("0001-01-01T00:00:01Z", "0001-01-01T00:00:00Z"),
    ("9999-12-31T23:59:59Z", "9999-12-31T23:59:58Z"),
]

NO_MOMENTS = [
    "", "now", "start", "0", "2024-01-01", "2024-01-01T09:00:00", "2024-01-01T09:00Z", "2024-1-01T09:00:00Z",
    "2024-01-01T9:00:00Z", "2024-01-01 09:00:00Z", "2024-01-01t09:00:00z", "2024-01-01T09:00:00z",
    "2024-01-01T09:00:00.0Z", "2024-01-01T09:00:00+00:00", "2024-01-01T09:00:00Z ", " 2024-01-01T09:00:00Z",
    "2024-01-01T09:00:00ZZ", "+2024-01-01T09:00:00Z", "-2024-01-01T09:00:00Z", "24-01-01T09:00:00Z",
    "10000-01-01T00:00:00Z", "0000-01-01T09:00:00Z", "2024-00-01T09:00:00Z", "2024-13-01T09:00:00Z",
    "2024-01-00T09:00:00Z", "2024-01-32T09:00:00Z", "2024-02-30T00:00:00Z", "2024-04-31T09:00:00Z",
    "2023-02-29T09:00:00Z", "1900-02-29T09:00:00Z", "2100-02-29T09:00:00Z", "2024-01-01T24:00:00Z",
    "2024-01-01T09:60:00Z", "2024-01-01T23:59:60Z", "2024/01/01T00:00:00Z", "2024-01-01T00.00.00Z",
    "２024-01-01T00:00:00Z",
]

# Ways to write the line by which the run `r` starts at this moment.
AT = b'"2024-01-01T09:00:00Z"'
STARTS = [
    b'[%s,"start","r"]' % AT,
    b' [%s,"start","r"]' % AT,
    b'[%s,"start","r"]  ' % AT,
    b'\t[%s,"start","r"]\t' % AT,
    b'[%s,"start","r"]\r' % AT,
    b'\r[ %s ,\t"start" , "r" ]\r' % AT,
    b'[%s,"\\u0073tart","\\u0072"]' % AT,
    b'["2024-01-01T09:00:00\\u005a","start","r"]',
]

# Bytes that are no JSON, some of them with more behind an array.
NO_JSON = [
    b"start", b"[", b"]", b"\0",
    b'[%s,"start","r"' % AT,
    b'[%s,"start","r' % AT,
    b'[%s,"start","r",]' % AT,
    b'[,%s,"start","r"]' % AT,
    b'[%s "start" "r"]' % AT,
    b"['2024-01-01T09:00:00Z','start','r']",
    b'[%s,"start",r]' % AT,
    b'[%s,"start","\xff"]' % AT,
    b'[%s,"start","\\ud800"]' % AT,
    b'[%s,"set","r","ann","n","\\ud800"]' % AT,
    b'[%s,"set","r","ann","n","\\ud800\\u0041"]' % AT,
    b'[%s,"set","r","ann","n","\\udc00\\ud800"]' % AT,
    b'[%s,"global-set","urn:g","","\\ud800"]' % AT,
    b'[%s,"start","\\x"]' % AT,
    b'[%s,"start","r\t"]' % AT,
    b'\xef\xbb\xbf[%s,"start","r"]' % AT,
    b'\xc2\xa0[%s,"start","r"]' % AT,
    b'[%s,"start","r"]x' % AT,
    b'[%s,"start","r"],' % AT,
    b'[%s,"start","r"] []' % AT,
    b'[%s,"start","r"]]' % AT,
    b'[%s,"start","r"}' % AT,
    b'{%s,"start","r"]' % AT,
    b'[%s,"start","r"}]' % AT,
    b'[%s:"start","r"]' % AT,
    b'[%s,"start":"r"]' % AT,
    b'[%s,"start","r":]' % AT,
    b'[%s,"start",,"r"]' % AT,
    b'%s,"start","r"]' % AT,
    b'[%s,"start","r"]\0' % AT,
    b"[" * 128 + b"]" * 128,
]

# JSON that is no array, and arrays that have too little or other things than texts.
OTHER_JSON = [
    b"null", b"true", b"1", b'"start"', b"{}", b'{"2024-01-01T09:00:00Z":"start"}', b"[]",
    b"[%s]" % AT,
    b'[%s,"start"]' % AT,
    b'["start","r"]',
    b'[0,"start","r"]',
    b'[null,"start","r"]',
    b'[%s,0,"r"]' % AT,
    b'[%s,"start",1]' % AT,
    b'[%s,"start",null]' % AT,
    b'[%s,"start",true]' % AT,
    b'[%s,"start",["r"]]' % AT,
    b'[%s,"start",{"r":"r"}]' % AT,
    b'[%s,["start","r"]]' % AT,
    b'[[%s,"start","r"]]' % AT,
    b'[%s,"start","r",1]' % AT,
    b'[%s,"start","r",[]]' % AT,
    b'[%s,"start","r",null]' % AT,
    b'[%s,"global-set","urn:g",null,"5"]' % AT,
    b'[%s,"global-set","urn:g","",5]' % AT,
    b'[%s,"set","r","ann","n",4]' % AT,
]

# Whole inputs, and how often a bad line and a run that was made are answered, in order.
CREATE = b'[%s,"create","r","u"]' % AT
BAD, MADE = "no 1 bad-line", "ok create"
INPUTS = [
    ("no line", b"", []),
    ("a line feed alone", b"\n", []),
    ("blank lines", b"\n \t\r\n\n   \n\t", []),
    ("a last line without a line feed", CREATE, [MADE]),
    ("a last line that is cut", b'["2024-', [BAD]),
    ("a blank line before and behind", b" \n" + CREATE + b"\n\r\n", [MADE]),
    ("carriage returns", CREATE + b"\r\nx\r\n", [MADE, BAD]),
    ("the longest line", CREATE + b" " * (65_536 - len(CREATE)) + b"\n", [MADE]),
    ("the longest line, as the last", CREATE + b" " * (65_536 - len(CREATE)), [MADE]),
    ("a line that is one byte longer", CREATE + b" " * (65_537 - len(CREATE)) + b"\n", [BAD]),
    ("the longest blank line", b" " * 65_536 + b"\n", []),
    ("a blank line that is one byte longer", b" " * 65_537 + b"\n" + CREATE, [BAD, MADE]),
    ("a line of 200,000 bytes, and then others", b"x" * 200_000 + b"\n" + CREATE + b"\nx", [BAD, MADE, BAD]),
    ("a long line that nothing ends", CREATE + b"\n" + b"x" * 100_000, [MADE, BAD]),
    ("bytes that are no UTF-8", b"\xff\xfe\n" + CREATE, [BAD, MADE]),
]
