"""The CSV file in a ZIP, as AtoM gives what one downloads."""

import io
import lzma
import re
import struct
import zipfile
import zlib

from wording import counted, text

SIGN = b"PK\x03\x04"
LARGEST = 32 << 20  # bytes: what an office takes at the desk, in UTF-32
WORKBOOK = {"[Content_Types].xml", "mimetype", "Index/Document.iwa"}  # of Excel, LibreOffice and Numbers
CSV = re.compile(r"(?!__MACOSX/).*[.]csv", re.I | re.S)
DAMAGED = (zipfile.BadZipFile, zlib.error, lzma.LZMAError, struct.error, EOFError, OSError, ValueError, RuntimeError)


def unpack(data):
    """The only CSV file in a ZIP, or None; and what is to be told of the ZIP, as the name of an advice and its values."""
    try:
        with zipfile.ZipFile(io.BytesIO(data)) as packed:
            if not WORKBOOK.isdisjoint(packed.namelist()):
                return None, ("workbook", {})
            files = [one for one in packed.infolist() if CSV.fullmatch(one.filename)]
            found = counted(len(files), "{number} CSV file is in it", "{number} CSV files are in it")
            if len(files) != 1:
                return None, ("zip", {"found": found})
            if files[0].file_size > LARGEST:
                return None, ("zip", {"found": text("the file in it is larger than {size} MiB", size=LARGEST >> 20)})
            return packed.read(files[0]), ("zip", {"found": found})
    except DAMAGED:  # RuntimeError: a password
        return None, ("zip", {"found": text("it has a password, or is damaged")})
