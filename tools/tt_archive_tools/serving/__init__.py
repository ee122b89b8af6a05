"""`tt serve`: an archive that stands open, asked by pages in a browser and by other tt.

  serve.py       the command
  standing.py    one program held open, asked by one thread at a time; it gives way to imports
  versions.py    the versions of each document, from the journal
  door.py        the socket through which other tt ask the program; visit.py is their side of it
  web.py         requests and answers; what every answer has in its head
  addresses.py   the one address of each answer
  markup.py      text as HTML; frame.py has what is around each page
  finding.py     the pages that find; reading.py those of one document; bands.py pictures as links
  difference.py  what a version changed
"""
