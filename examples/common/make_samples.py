#!/usr/bin/env python3
"""Writes the samples of this folder, byte by byte, and the line that each must get.

    python3 examples/common/make_samples.py [--compare]

Each sample is as small as its format allows, or little more, and is put together from the numbers that
the format's publication gives (`sources.csv` lists the publications); no library of the format takes
part. The line beside it is that of the format for which it was made: its PUID, and its signature in
`signatures.csv` that these bytes were made for. With `--compare` nothing is written: the files in
`samples/` must be the ones that would be.
"""
import base64
import hashlib
import os
import struct
import sys
import zlib

HERE = os.path.dirname(os.path.abspath(__file__))


# ---- small parts

def be(form, *numbers):
    """Numbers with the highest byte first."""
    return struct.pack(">" + form, *numbers)


def le(form, *numbers):
    """Numbers with the lowest byte first."""
    return struct.pack("<" + form, *numbers)


def padded(data, length, fill=b"\0"):
    """The bytes, filled up to a multiple of a length."""
    return data + fill * (-len(data) % length)


def remainder_32(data):
    """The checksum of Ogg pages and bzip2: the polynomial 04C11DB7, highest bit first."""
    rest = 0
    for byte in data:
        rest ^= byte << 24
        for _ in range(8):
            rest = (rest << 1 ^ (0x04C11DB7 if rest >> 31 else 0)) & 0xFFFFFFFF
    return rest


# ---- images

def gif(version):
    """One black pixel; the version 89a with a graphic control extension."""
    head = b"GIF" + version + le("HH", 1, 1) + b"\x80\0\0" + b"\0\0\0\xff\xff\xff"
    control = b"\x21\xf9\4\0\0\0\0\0" if version == b"89a" else b""
    return head + control + b"\x2c" + le("HHHH", 0, 0, 1, 1) + b"\0" + b"\2\2\x44\1\0" + b"\x3b"


def png(*extra):
    """One grey pixel in a stored block, with more chunks behind IHDR."""
    def chunk(kind, data):
        return be("I", len(data)) + kind + data + be("I", zlib.crc32(kind + data))
    line = b"\0\x80"
    stored = b"\x78\1" + b"\1" + le("HH", len(line), 0xFFFF ^ len(line)) + line + be("I", zlib.adler32(line))
    chunks = [(b"IHDR", be("IIBBBBB", 1, 1, 8, 0, 0, 0, 0)), *extra, (b"IDAT", stored), (b"IEND", b"")]
    return b"\x89PNG\r\n\x1a\n" + b"".join(chunk(*each) for each in chunks)


def jpeg(segment):
    """One grey pixel of 8 by 8 that are all alike: each Huffman table has one code of one bit."""
    def marked(marker, data):
        return b"\xff" + marker + be("H", len(data) + 2) + data
    tables = marked(b"\xdb", b"\0" + b"\1" * 64)
    frame = marked(b"\xc0", b"\x08" + be("HH", 1, 1) + b"\1" + b"\1\x11\0")
    codes = b"".join(marked(b"\xc4", bytes([kind]) + b"\1" + b"\0" * 15 + b"\0") for kind in (0x00, 0x10))
    return b"\xff\xd8" + marked(*segment) + tables + frame + codes + marked(b"\xda", b"\1\1\0\0\x3f\0") + b"\x3f\xff\xd9"


JFIF = (b"\xe0", b"JFIF\0" + b"\1\1" + b"\0" + be("HH", 1, 1) + b"\0\0")
EXIF = (b"\xe1", b"Exif\0\0" + b"MM\0\x2a" + be("I", 8) + be("H", 1) + be("HHII", 0x0112, 3, 1, 1 << 16) + be("I", 0))


def tiff():
    """One white pixel, little endian, with the fields of a bilevel image."""
    fields = [(256, 4, 1), (257, 4, 1), (259, 3, 1), (262, 3, 1), (273, 4, 8), (278, 4, 1), (279, 4, 1),
              (282, 5, 10), (283, 5, 10), (296, 3, 1)]
    rows = b"".join(le("HHII", tag, kind, 1, value) for tag, kind, value in fields)
    return b"II\x2a\0" + le("I", 18) + b"\x80\0" + le("II", 1, 1) + le("H", len(fields)) + rows + le("I", 0)


def bitmap():
    """One white pixel of 24 bits."""
    head = le("IiiHHIIiiII", 40, 1, 1, 1, 24, 0, 4, 0, 0, 0, 0)
    return b"BM" + le("IHHI", 58, 0, 0, 54) + head + b"\xff\xff\xff\0"


def icon():
    """One white pixel of 32 bits and its mask."""
    image = le("IiiHHIIiiII", 40, 1, 2, 1, 32, 0, 0, 0, 0, 0, 0) + b"\xff" * 4 + b"\0" * 4
    return le("HHH", 0, 1, 1) + bytes([1, 1, 0, 0]) + le("HHII", 1, 32, len(image), 22) + image


def targa(pixel):
    """A TGA 2.0 file with one pixel: the header, the pixel, the footer."""
    head = bytes([0, 0, 2, 0, 0, 0, 0, 0]) + le("HHHH", 0, 0, 1, 1) + bytes([24, 0])
    return head + pixel + footer()


def footer():
    return le("II", 0, 0) + b"TRUEVISION-XFILE.\0"


def fits():
    cards = ["SIMPLE  =                    T", "BITPIX  =                    8", "NAXIS   =                    0", "END"]
    return padded("".join(card.ljust(80) for card in cards).encode(), 2880, b" ")


def dicom():
    syntax = padded(b"1.2.840.10008.1.2.1", 2)
    element = le("HH", 2, 16) + b"UI" + le("H", len(syntax)) + syntax
    return b"\0" * 128 + b"DICM" + le("HH", 2, 0) + b"UL" + le("HI", 4, len(element)) + element


# ---- documents

def pdf(version, metadata=b""):
    """An empty page, with its table of places; with metadata these are a stream of the catalog."""
    objects = [b"<</Type/Catalog/Pages 2 0 R" + (b"/Metadata 4 0 R" if metadata else b"") + b">>",
               b"<</Type/Pages/Kids[3 0 R]/Count 1>>", b"<</Type/Page/Parent 2 0 R/MediaBox[0 0 9 9]>>"]
    if metadata:
        objects.append(b"<</Type/Metadata/Subtype/XML/Length %d>>stream\n%s\nendstream" % (len(metadata), metadata))
    out, places = b"%%PDF-%s\n%%\xe2\xe3\xcf\xd3\n" % version, []
    for number, content in enumerate(objects, 1):
        places.append(len(out))
        out += b"%d 0 obj%s endobj\n" % (number, content)
    table = b"xref\n0 %d\n0000000000 65535 f \n" % (len(objects) + 1) + b"".join(b"%010d 00000 n \n" % at for at in places)
    end = b"trailer<</Size %d/Root 1 0 R>>\nstartxref\n%d\n%%%%EOF\n" % (len(objects) + 1, len(out))
    return out + table + end


XMP = (b'<?xpacket begin="" id="W5M0MpCehiHzreSzNTczkc9d"?><x:xmpmeta xmlns:x="adobe:ns:meta/"><rdf:RDF '
       b'xmlns:rdf="http://www.w3.org/1999/02/22-rdf-syntax-ns#"><rdf:Description rdf:about="" '
       b'xmlns:pdfaid="http://www.aiim.org/pdfa/ns/id/"><pdfaid:part>1</pdfaid:part>'
       b'<pdfaid:conformance>B</pdfaid:conformance></rdf:Description></rdf:RDF></x:xmpmeta><?xpacket end="w"?>')
XML = b'<?xml version="1.0" encoding="UTF-8"?>\n'
SVG = b'<svg xmlns="http://www.w3.org/2000/svg" version="1.1" width="1" height="1"/>\n'
METS = XML + b'<mets xmlns="http://www.loc.gov/METS/"><structMap><div/></structMap></mets>\n'
PREMIS = (b'<mets xmlns="http://www.loc.gov/METS/"><amdSec><digiprovMD ID="a"><mdWrap MDTYPE="PREMIS"><xmlData>'
          b'<premis xmlns="http://www.loc.gov/premis/v3" version="3.0"/></xmlData></mdWrap></digiprovMD></amdSec>'
          b'<structMap><div/></structMap></mets>\n')
HTML = b'<!doctype html>\n<title>A</title>\n'
HTML4 = b'<!DOCTYPE HTML PUBLIC "-//W3C//DTD HTML 4.01//EN" "http://www.w3.org/TR/html4/strict.dtd">\n<title>A</title><p>A\n'
XHTML = (XML + b'<!DOCTYPE html PUBLIC "-//W3C//DTD XHTML 1.0 Strict//EN" "http://www.w3.org/TR/xhtml1/DTD/xhtml1-strict.dtd">\n'
         b'<html xmlns="http://www.w3.org/1999/xhtml"><head><title>A</title></head><body>'
         b'<p><svg xmlns="http://www.w3.org/2000/svg" version="1.1"/></p></body></html>\n')


def stored_zip(*members):
    """A ZIP archive of stored members, each with its local header, its bytes and its entry at the end."""
    out, entries = b"", b""
    for name, data in members:
        fields = le("HHHHHIIIHH", 10, 0, 0, 0, 0x21, zlib.crc32(data), len(data), len(data), len(name), 0)
        entries += b"PK\1\2" + le("H", 10) + fields + le("HHHII", 0, 0, 0, 0, len(out)) + name
        out += b"PK\3\4" + fields + name + data
    end = le("HHHHIIH", 0, 0, len(members), len(members), len(entries), len(out), 0)
    return out + entries + b"PK\5\6" + end


def docx():
    kind = b"application/vnd.openxmlformats-"
    types = (b'<Types xmlns="http://schemas.openxmlformats.org/package/2006/content-types"><Default Extension="rels" '
             b'ContentType="' + kind + b'package.relationships+xml"/><Override PartName="/word/document.xml" ContentType="'
             + kind + b'officedocument.wordprocessingml.document.main+xml"/></Types>')
    relations = (b'<Relationships xmlns="http://schemas.openxmlformats.org/package/2006/relationships"><Relationship '
                 b'Id="a" Type="http://schemas.openxmlformats.org/officeDocument/2006/relationships/officeDocument" '
                 b'Target="word/document.xml"/></Relationships>')
    document = (b'<w:document xmlns:w="http://schemas.openxmlformats.org/wordprocessingml/2006/main">'
                b'<w:body><w:p/></w:body></w:document>')
    return stored_zip((b"[Content_Types].xml", XML + types), (b"_rels/.rels", XML + relations),
                      (b"word/document.xml", XML + document))


def odt():
    kind = b"application/vnd.oasis.opendocument.text"
    space = b"urn:oasis:names:tc:opendocument:xmlns:"
    manifest = (b'<m:manifest xmlns:m="' + space + b'manifest:1.0" m:version="1.2"><m:file-entry m:full-path="/" '
                b'm:media-type="' + kind + b'"/><m:file-entry m:full-path="content.xml" m:media-type="text/xml"/></m:manifest>')
    content = (b'<o:document-content xmlns:o="' + space + b'office:1.0" o:version="1.2"><o:body><o:text/></o:body>'
               b'</o:document-content>')
    return stored_zip((b"mimetype", kind), (b"META-INF/manifest.xml", XML + manifest), (b"content.xml", XML + content))


def epub():
    container = (b'<container xmlns="urn:oasis:names:tc:opendocument:xmlns:container" version="1.0"><rootfiles>'
                 b'<rootfile full-path="a.opf" media-type="application/oebps-package+xml"/></rootfiles></container>')
    package = (b'<package xmlns="http://www.idpf.org/2007/opf" version="3.0" unique-identifier="a"><metadata '
               b'xmlns:dc="http://purl.org/dc/elements/1.1/"><dc:identifier id="a">a</dc:identifier><dc:title>A</dc:title>'
               b'<dc:language>en</dc:language></metadata><manifest/><spine/></package>')
    return stored_zip((b"mimetype", b"application/epub+zip"), (b"META-INF/container.xml", XML + container), (b"a.opf", XML + package))


def jar():
    return stored_zip((b"META-INF/MANIFEST.MF", b"Manifest-Version: 1.0\r\n\r\n"))


# ---- archives

def tar(name, data):
    """One file, and the two empty blocks at the end."""
    def octal(number, digits):
        return b"%0*o\0" % (digits, number)
    head = (name.ljust(100, b"\0") + octal(0o644, 7) + octal(0, 7) + octal(0, 7) + octal(len(data), 11) + octal(0, 11)
            + b" " * 8 + b"0" + b"\0" * 100 + b"ustar\0" + b"00")
    head = padded(head, 512)
    head = head[:148] + b"%06o\0 " % sum(head) + head[156:]
    return head + padded(data, 512) + b"\0" * 1024


def gzip(data):
    """One stored block."""
    block = b"\1" + le("HH", len(data), 0xFFFF ^ len(data)) + data
    return b"\x1f\x8b\x08\0" + le("I", 0) + b"\0\xff" + block + le("II", zlib.crc32(data), len(data))


def xz():
    """No block: the stream header, an empty index, the stream footer."""
    flags, index = b"\0\4", b"\0\0\0\0"
    back = le("I", 1) + flags
    head = b"\xfd7zXZ\0" + flags + le("I", zlib.crc32(flags))
    return head + index + le("I", zlib.crc32(index)) + le("I", zlib.crc32(back)) + back + b"YZ"


def seven_zip():
    """No file: the next header has no byte."""
    start = le("QQI", 0, 0, 0)
    return b"7z\xbc\xaf\x27\x1c\0\4" + le("I", zlib.crc32(start)) + start


def zstandard(data):
    """One raw block in a frame that tells its size in a byte."""
    return b"\x28\xb5\x2f\xfd\x20" + bytes([len(data)]) + le("I", len(data) << 3 | 1)[:3] + data


def ar(*members):
    def member(name, data):
        return b"%-16s%-12d%-6d%-6d%-8o%-10d`\n" % (name, 0, 0, 0, 0o100644, len(data)) + padded(data, 2, b"\n")
    return b"!<arch>\n" + b"".join(member(*each) for each in members)


def cpio():
    """The end mark alone."""
    name = b"TRAILER!!!\0"
    fields = [0] * 4 + [1] + [0] * 6 + [len(name), 0]
    return padded(b"070701" + b"".join(b"%08X" % field for field in fields) + name, 4)


WARC = (b"WARC/1.0\r\nWARC-Type: warcinfo\r\nWARC-Record-ID: <urn:uuid:00000000-0000-4000-8000-000000000000>\r\n"
        b"WARC-Date: 2020-01-01T00:00:00Z\r\nContent-Type: application/warc-fields\r\nContent-Length: 0\r\n\r\n\r\n\r\n")


# ---- audio and video

def chunks(kind, form, order, *parts):
    """A RIFF or IFF file of some chunks, each filled up to an even length."""
    body = form + b"".join(name + order("I", len(data)) + padded(data, 2) for name, data in parts)
    return kind + order("I", len(body)) + body


def wave(*extra):
    return chunks(b"RIFF", b"WAVE", le, *extra, (b"fmt ", le("HHIIHH", 1, 1, 8000, 8000, 1, 8)), (b"data", b"\x80"))


def aiff():
    rate = bytes.fromhex("400bfa00000000000000")  # 8,000 as a number of 80 bits
    return chunks(b"FORM", b"AIFF", be, (b"COMM", be("HIH", 1, 1, 8) + rate), (b"SSND", be("II", 0, 0) + b"\0"))


def midi():
    return b"MThd" + be("IHHH", 6, 0, 1, 96) + b"MTrk" + be("I", 4) + b"\0\xff\x2f\0"


def flac():
    """STREAMINFO alone: 44,100 samples a second, one channel, 16 bits, a length that is not told."""
    packed = 44100 << 44 | 0 << 41 | 15 << 36
    return b"fLaC" + b"\x80\0\0\x22" + be("HH", 4096, 4096) + b"\0" * 6 + be("Q", packed) + b"\0" * 16


def ogg(packet):
    """The first page of a stream, with one packet below 255 bytes."""
    def page(checksum):
        return b"OggS\0\2" + b"\0" * 8 + le("III", 1, 0, checksum) + bytes([1, len(packet)]) + packet
    return page(remainder_32(page(0)))


VORBIS = b"\1vorbis" + le("IBIiii", 0, 1, 44100, 0, 0, 0) + b"\xb8\1"
OPUS = b"OpusHead" + le("BBHIhB", 1, 1, 0, 48000, 0, 0)


def box(kind, data):
    return be("I", len(data) + 8) + kind + data


def mp4():
    """The file type, and a movie header without a track."""
    unity = be("9I", 1 << 16, 0, 0, 0, 1 << 16, 0, 0, 0, 1 << 30)
    header = be("IIIIIIH", 0, 0, 0, 1000, 0, 1 << 16, 256) + b"\0" * 10 + unity + b"\0" * 24 + be("I", 1)
    return box(b"ftyp", b"isom" + be("I", 512) + b"isommp41") + box(b"moov", box(b"mvhd", header))


def ebml(kind):
    """The EBML header, and a segment without an element."""
    fields = [(0x4286, b"\1"), (0x42F7, b"\1"), (0x42F2, b"\4"), (0x42F3, b"\x08"), (0x4282, kind), (0x4287, b"\4"), (0x4285, b"\2")]
    body = b"".join(be("H", number) + bytes([0x80 | len(data)]) + data for number, data in fields)
    return b"\x1a\x45\xdf\xa3" + bytes([0x80 | len(body)]) + body + b"\x18\x53\x80\x67\x80"


# ---- fonts, programs, data

BDF = (b"STARTFONT 2.1\nFONT a\nSIZE 1 75 75\nFONTBOUNDINGBOX 1 1 0 0\nCHARS 1\nSTARTCHAR A\nENCODING 65\n"
       b"SWIDTH 1000 0\nDWIDTH 1 0\nBBX 1 1 0 0\nBITMAP\n80\nENDCHAR\nENDFONT\n")


def elf():
    """A program of Linux on x86-64 that ends with the status 0."""
    code = bytes.fromhex("b83c00000031ff0f05")
    size, base = 120 + len(code), 0x400000
    head = b"\x7fELF\2\1\1" + b"\0" * 9 + le("HHIQQQIHHHHHH", 2, 62, 1, base + 120, 64, 0, 0, 64, 56, 1, 64, 0, 0)
    return head + le("IIQQQQQQ", 1, 5, 0, base, base, size, size, 4096) + code


def dos():
    """A header of two paragraphs and code that ends the program."""
    code = bytes.fromhex("b8004ccd21")
    return padded(b"MZ" + le("13H", 32 + len(code), 1, 0, 2, 0, 0xFFFF, 0, 256, 0, 0, 0, 28, 0), 32) + code


def java():
    """The class A without a field or a method."""
    def text(word):
        return b"\1" + be("H", len(word)) + word
    pool = b"\7" + be("H", 2) + text(b"A") + b"\7" + be("H", 4) + text(b"java/lang/Object")
    return b"\xca\xfe\xba\xbe" + be("HHH", 0, 52, 5) + pool + be("HHHHHHH", 0x21, 1, 3, 0, 0, 0, 0)


def sqlite(application=0):
    """One page of 512 bytes with an empty schema."""
    head = b"SQLite format 3\0" + be("H", 512) + bytes([1, 1, 0, 64, 32, 32]) + be("11I", 1, 1, 0, 0, 0, 4, 0, 0, 1, 0, 0)
    head += be("I", application) + b"\0" * 20 + be("II", 1, 3040000)
    return padded(head + b"\x0d" + be("HHH", 0, 0, 512) + b"\0", 512)


def numpy():
    head = b"{'descr': '|u1', 'fortran_order': False, 'shape': (1,), }"
    head += b" " * (117 - len(head)) + b"\n"
    return b"\x93NUMPY\1\0" + le("H", len(head)) + head + b"\7"


def pcapng():
    return be("IIIHHqI", 0x0A0D0D0A, 28, 0x1A2B3C4D, 1, 0, -1, 28)


def git_pack():
    head = b"PACK" + be("II", 2, 0)
    return head + hashlib.sha1(head).digest()


def gltf():
    text = padded(b'{"asset":{"version":"2.0"}}', 4, b" ")
    return b"glTF" + le("III", 2, 20 + len(text), len(text)) + b"JSON" + text


def avro():
    return b"Obj\1" + b"\2" + b"\x16avro.schema" + b"\x0c\"null\"" + b"\0" + b"\0" * 16


# ---- all of them: the name, the line, the bytes

SAMPLES = [
    ("one.87.gif", "fmt/3 1", gif(b"87a")),
    ("one.89.gif", "fmt/4 2", gif(b"89a")),
    ("grey.png", "fmt/11 3", png()),
    ("text.png", "fmt/13 4", png((b"iTXt", b"Title\0\0\0\0\0A"))),
    ("jfif.jpg", "fmt/43 9", jpeg(JFIF)),
    ("exif.jpg", "x-fmt/900003 11", jpeg(EXIF)),
    ("comment.jpg", "fmt/41 7", jpeg((b"\xfe", b"A"))),
    ("white.tif", "fmt/353 12", tiff()),
    ("white.bmp", "fmt/116 16", bitmap()),
    ("lossless.webp", "fmt/567 24", base64.b64decode("UklGRhoAAABXRUJQVlA4TA0AAAAvAAAAEAcQERGIiP4HAA==")),
    ("white.ico", "x-fmt/900010 30", icon()),
    ("white.ppm", "x-fmt/900012 32", b"P6\n1 1\n255\n\xff\xff\xff"),
    ("white.tga", "fmt/402 35", targa(b"\xff\xff\xff")),
    ("white.xpm", "x-fmt/900023 44", b'/* XPM */\nstatic char *a[] = {\n"1 1 1 1",\n"a c #FFFFFF",\n"a"\n};\n'),
    ("white.hdr", "x-fmt/900024 45", b"#?RADIANCE\nFORMAT=32-bit_rle_rgbe\n\n-Y 1 +X 1\n\x80\x80\x80\x81"),
    ("black.qoi", "x-fmt/900027 52", b"qoif" + be("IIBB", 1, 1, 3, 0) + b"\xc0" + b"\0" * 7 + b"\1"),
    ("white.ff", "x-fmt/900028 53", b"farbfeld" + be("II", 1, 1) + b"\xff" * 8),
    ("empty.fits", "x-fmt/383 54", fits()),
    ("header.dcm", "fmt/574 55", dicom()),
    ("empty.1.4.pdf", "fmt/18 61", pdf(b"1.4")),
    ("empty.2.0.pdf", "fmt/1129 65", pdf(b"2.0")),
    ("marked.a1b.pdf", "fmt/354 67", pdf(b"1.4", XMP)),
    ("letter.rtf", "x-fmt/900030 70", b"{\\rtf1\\ansi A}"),
    ("empty.ps", "x-fmt/900031 71", b"%!PS-Adobe-3.0\n%%EndComments\n%%EOF\n"),
    ("empty.eps", "x-fmt/900032 72", b"%!PS-Adobe-3.0 EPSF-3.0\n%%BoundingBox: 0 0 1 1\n%%EndComments\n%%EOF\n"),
    ("stored.zip", "x-fmt/263 81", stored_zip((b"a", b"A"))),
    ("empty.zip", "x-fmt/263 82", stored_zip()),
    ("letter.docx", "fmt/412 83", docx()),
    ("letter.odt", "x-fmt/900036 87", odt()),
    ("book.epub", "fmt/483 91", epub()),
    ("empty.jar", "x-fmt/412 92", jar()),
    ("page.5.html", "fmt/471 93", HTML),
    ("page.4.html", "fmt/100 94", HTML4),
    ("page.xhtml", "fmt/102 96", XHTML),
    ("plain.xml", "fmt/101 97", XML + b"<a/>\n"),
    ("wide.xml", "fmt/101 99", "\ufeff<?xml version='1.0'?><a/>".encode("utf-16-le")),
    ("empty.svg", "fmt/92 101", XML + SVG),
    ("bare.svg", "fmt/92 102", SVG),
    ("mets.xml", "x-fmt/900044 107", METS),
    ("mets_premis.xml", "x-fmt/900044 107", XML + PREMIS),
    ("card.vcf", "x-fmt/900047 110", b"BEGIN:VCARD\r\nVERSION:4.0\r\nFN:A\r\nEND:VCARD\r\n"),
    ("empty.ics", "x-fmt/900048 111", b"BEGIN:VCALENDAR\r\nVERSION:2.0\r\nPRODID:a\r\nEND:VCALENDAR\r\n"),
    ("file.tar", "x-fmt/265 114", tar(b"a", b"A")),
    ("named.tar", "x-fmt/265 114", tar(b"GIF89a;", b"A")),
    ("letter.gz", "x-fmt/266 115", gzip(b"A")),
    ("empty.bz2", "x-fmt/268 117", bytes.fromhex("425a6839177245385090") + b"\0" * 4),
    ("empty.xz", "x-fmt/900052 118", xz()),
    ("empty.7z", "fmt/484 119", seven_zip()),
    ("letter.zst", "x-fmt/900054 122", zstandard(b"A")),
    ("empty.lz4", "x-fmt/900055 123", bytes.fromhex("04224d1860408200000000")),
    ("letter.a", "x-fmt/900057 126", ar((b"a/", b"A"))),
    ("empty.deb", "x-fmt/900058 127", ar((b"debian-binary", b"2.0\n"), (b"control.tar", b"\0" * 1024), (b"data.tar", b"\0" * 1024))),
    ("empty.cpio", "x-fmt/900060 129", cpio()),
    ("info.warc", "fmt/289 137", WARC),
    ("tick.wav", "fmt/6 141", wave()),
    ("tick.bwf.wav", "fmt/1 142", wave((b"bext", b"\0" * 602))),
    ("tick.aiff", "fmt/414 145", aiff()),
    ("tick.au", "x-fmt/139 148", b".snd" + be("IIIII", 28, 1, 2, 8000, 1) + b"\0" * 4 + b"\0"),
    ("empty.mid", "x-fmt/230 149", midi()),
    ("silent.mp3", "fmt/134 151", b"\xff\xfb\x90\xc0" + b"\0" * 413),
    ("empty.flac", "fmt/279 152", flac()),
    ("first_page.ogg", "fmt/203 154", ogg(VORBIS)),
    ("first_page.opus", "fmt/946 155", ogg(OPUS)),
    ("silent.amr", "fmt/356 158", b"#!AMR\n\x7c"),
    ("empty.mp4", "fmt/199 166", mp4()),
    ("empty.mkv", "fmt/569 168", ebml(b"matroska")),
    ("empty.webm", "fmt/573 169", ebml(b"webm")),
    ("empty.flv", "x-fmt/382 171", b"FLV\1\0" + be("II", 9, 0)),
    ("null.ts", "x-fmt/900079 177", (b"\x47\x1f\xff\x10" + b"\xff" * 184) * 3),
    ("black.y4m", "x-fmt/900081 179", b"YUV4MPEG2 W2 H2 F25:1 Ip A1:1 C420\nFRAME\n" + b"\x10" * 4 + b"\x80" * 2),
    ("one_frame.swf", "x-fmt/900082 180", b"FWS\6" + le("IBHHHH", 17, 0, 12 << 8, 1, 64, 0)),
    ("a.bdf", "x-fmt/900088 188", BDF),
    ("ends.elf", "fmt/690 191", elf()),
    ("ends.exe", "x-fmt/409 193", dos()),
    ("A.class", "x-fmt/415 201", java()),
    ("empty.wasm", "x-fmt/900090 202", b"\0asm\1\0\0\0"),
    ("ends.sh", "x-fmt/900094 206", b"#!/bin/sh\nexit 0\n"),
    ("empty.sqlite", "fmt/729 207", sqlite()),
    ("marked.gpkg", "x-fmt/900095 208", sqlite(0x47504B47)),
    ("empty.nc", "fmt/282 211", b"CDF\1" + b"\0" * 28),
    ("seven.npy", "x-fmt/900100 215", numpy()),
    ("null.avro", "x-fmt/900104 219", avro()),
    ("empty.shp", "x-fmt/235 222", be("7I", 9994, 0, 0, 0, 0, 0, 50) + le("II", 1000, 0) + b"\0" * 64),
    ("empty.pcap", "x-fmt/900109 225", be("IHHIIII", 0xA1B2C3D4, 2, 4, 0, 0, 65535, 1)),
    ("empty.pcapng", "x-fmt/900110 226", pcapng()),
    ("empty.glb", "x-fmt/900111 227", gltf()),
    ("empty.ply", "x-fmt/900112 228", b"ply\nformat ascii 1.0\nelement vertex 0\nproperty float x\nend_header\n"),
    ("empty.pack", "x-fmt/900113 232", git_pack()),
    ("empty.bundle", "x-fmt/900114 233", b"# v2 git bundle\n\n" + git_pack()),
    ("calls.vcf", "x-fmt/900117 236", b"##fileformat=VCFv4.2\n#CHROM\tPOS\tID\tREF\tALT\tQUAL\tFILTER\tINFO\n"),
    ("null.cbor", "x-fmt/900119 238", b"\xd9\xd9\xf7\xf6"),
    # a WAVE file that goes on with the footer of TGA, text, and no byte
    ("footed.wav", "fmt/6 141", wave() + footer()),
    ("words.txt", "-", b"Plain words.\n"),
    ("nothing", "-", b""),
]


def main():
    lines = "".join(f"{name} {line}\n" for name, line, _ in SAMPLES)
    files = [(os.path.join("samples", name), data) for name, _, data in SAMPLES] + [("expected.txt", lines.encode())]
    for name, data in files:
        path = os.path.join(HERE, name)
        if sys.argv[1:] == ["--compare"]:
            with open(path, "rb") as f:
                if f.read() != data:
                    sys.exit(f"{name} has other bytes")
        else:
            os.makedirs(os.path.dirname(path), exist_ok=True)
            with open(path, "wb") as f:
                f.write(data)


if __name__ == "__main__":
    main()
