"""A folder for `homerange-page`: a report that was worked out by hand, its tracks, their record, and a boundary."""

import hashlib

# A triangle and a point within it, and a line through it.
REPORT = b"""animal,fox,fixes,4
box,fox,1000,2000,1040,2030
row,fox,1,0,1,0
row,fox,2,60,2,0
row,fox,3,120,3,1200
row,fox,4,180,3,1200
corner,fox,1,1000,2000
corner,fox,2,1040,2000
corner,fox,3,1040,2030
percent,fox,100,4,3,1200
animal,owl,fixes,2
box,owl,1010,2001,1050,2001
row,owl,1,0,1,0
row,owl,2,60,2,0
corner,owl,1,1010,2001
corner,owl,2,1050,2001
percent,owl,100,2,2,0
overlap,fox,owl,0,4
overlap,owl,fox,1,2
end,2
"""
TITLES = b"animal,second,easting,northing\n"
FOX = TITLES + b"fox,0,1000,2000\nfox,60,1040,2000\nfox,120,1040,2030\nfox,180,1030,2010\n"
OWL = TITLES + b"owl,0,1010,2001\nowl,60,1050,2001\n"
RECORD = f"""export,export.csv
sha256,{hashlib.sha256(FOX + OWL).hexdigest()}
unit,m
zone,none
track,fox,4,4,{hashlib.sha256(FOX).hexdigest()}
track,owl,2,2,{hashlib.sha256(OWL).hexdigest()}
tool,homerange-split 1.0.0 (logic 0123456789abcdef)
""".encode()
BOUNDARY = b"ring,easting,northing\n1,990.000,1990.000\n1,1060.000,1990.000\n1,1060.000,2040.500\n"
OWN = {"of/report.txt": REPORT, "of/tracks/fox.csv": FOX, "of/tracks/owl.csv": OWL}
WHOLE = {**OWN, "of/tracks/split.txt": RECORD, "of/boundary.csv": BOUNDARY}
# What is made of it, and what is in the making.
MADE = ("of/summary.csv", "of/animals.csv", "of/overlaps.csv", "of/report.html")
PARTS = {f"of/.{name[3:]}.part" for name in MADE}
