"""Readers of QR codes, and pictures for them: zbar, ZXing, and ZXing for Java (Debian: zbar-tools,
zxing-cpp-tools, libzxing-core-java with a JDK). Each reader returns the text of a picture."""

import base64
import functools
import os
import re
import shutil
import struct
import subprocess
import tempfile
import zipfile
import zlib

READ_BY_JAVA = """
import com.google.zxing.*;
import com.google.zxing.common.HybridBinarizer;
import com.google.zxing.qrcode.QRCodeReader;
import java.awt.image.BufferedImage;
import java.io.*;
import java.nio.charset.StandardCharsets;
import java.util.*;
import javax.imageio.ImageIO;

public class Read {
    static String read(String path) throws Exception {
        BufferedImage image = ImageIO.read(new File(path));
        int width = image.getWidth(), height = image.getHeight();
        int[] pixels = image.getRGB(0, 0, width, height, null, 0, width);
        LuminanceSource source = new RGBLuminanceSource(width, height, pixels);
        Map<DecodeHintType, Object> hints = new EnumMap<>(DecodeHintType.class);
        hints.put(DecodeHintType.PURE_BARCODE, Boolean.TRUE);
        BinaryBitmap bitmap = new BinaryBitmap(new HybridBinarizer(source));
        return new QRCodeReader().decode(bitmap, hints).getText();
    }

    public static void main(String[] words) throws Exception {
        BufferedReader in = new BufferedReader(new InputStreamReader(System.in));
        for (String path; (path = in.readLine()) != null;) {
            String said;
            try {
                byte[] text = read(path).getBytes(StandardCharsets.UTF_8);
                said = "+" + Base64.getEncoder().encodeToString(text);
            } catch (Exception error) {
                said = "-" + error.getClass().getSimpleName();
            }
            System.out.println(said);
            System.out.flush();
        }
    }
}
"""


def java_archive():
    """The archive of ZXing for Java, if it is here with a compiler."""
    if not (shutil.which("java") and shutil.which("javac")):
        return None
    for path in sorted(os.listdir("/usr/share/java")) if os.path.isdir("/usr/share/java") else []:
        if re.fullmatch(r"core[-.0-9]*jar", path):
            path = f"/usr/share/java/{path}"
            if "com/google/zxing/qrcode/QRCodeReader.class" in zipfile.ZipFile(path).namelist():
                return path
    return None


class Java:
    """ZXing for Java: one process, which is sent a path a line."""

    def __init__(self):
        self.folder = tempfile.TemporaryDirectory()
        with open(f"{self.folder.name}/Read.java", "w") as it:
            it.write(READ_BY_JAVA)
        path = f"{java_archive()}:{self.folder.name}"
        subprocess.run(["javac", "-cp", path, f"{self.folder.name}/Read.java"], check=True)
        words = ["java", "-Djava.awt.headless=true", "-XX:+UseSerialGC", "-cp", path, "Read"]
        self.process = subprocess.Popen(words, stdin=subprocess.PIPE, stdout=subprocess.PIPE,
                                        text=True)

    def read(self, path):
        self.process.stdin.write(path + "\n")
        self.process.stdin.flush()
        said = self.process.stdout.readline().rstrip("\n")
        return base64.b64decode(said[1:]).decode() if said[:1] == "+" else f"<{said[1:]}>"


@functools.cache
def java():
    return Java()


def read_by_zbar(path):
    words = ["zbarimg", "--nodbus", "-q", "--raw", "-Sdisable", "-Sqrcode.enable", path]
    return subprocess.run(words, capture_output=True).stdout.decode(errors="replace")[:-1]


def read_by_zxing(path):
    words = ["ZXingReader", "-format", "QRCode", path]
    said = subprocess.run(words, capture_output=True).stdout.decode(errors="replace")
    found = re.search(r'^Text: +"(.*)"\nBytes: ', said, re.M | re.S)
    return found[1] if found else ""


READERS = {
    **({"zbar": read_by_zbar} if shutil.which("zbarimg") else {}),
    **({"ZXing": read_by_zxing} if shutil.which("ZXingReader") else {}),
    **({"ZXing for Java": lambda path: java().read(path)} if java_archive() else {}),
}
PACKAGES = {"zbar": "zbar-tools", "ZXing": "zxing-cpp-tools",
            "ZXing for Java": "libzxing-core-java, and a JDK"}


def picture_of(bitmaps):
    """A PNG picture of some bitmaps of the format PBM, four in a row, with light between them."""
    sides = []
    for bitmap in bitmaps:
        _, size, bits = bitmap.split(b"\n", 2)
        width, height = map(int, size.split())
        stride = (width + 7) // 8
        sides.append((width, [bits[y * stride:(y + 1) * stride] for y in range(height)]))
    side = max(max(width, len(rows)) for width, rows in sides) + 40
    grey = [bytearray(b"\xff" * (4 * side)) for _ in range(side * ((len(sides) + 3) // 4))]
    for place, (width, rows) in enumerate(sides):
        left, top = place % 4 * side + 20, place // 4 * side + 20
        for y, row in enumerate(rows):
            grey[top + y][left:left + width] = bytes(
                255 - 255 * (row[x // 8] >> 7 - x % 8 & 1) for x in range(width))
    head = struct.pack(">IIBBBBB", 4 * side, len(grey), 8, 0, 0, 0, 0)
    data = zlib.compress(b"".join(b"\0" + row for row in grey), 1)
    parts = [b"IHDR" + head, b"IDAT" + data, b"IEND"]
    sums = [(struct.pack(">I", len(it) - 4), it, struct.pack(">I", zlib.crc32(it))) for it in parts]
    return b"\x89PNG\r\n\x1a\n" + b"".join(b"".join(chunk) for chunk in sums)
