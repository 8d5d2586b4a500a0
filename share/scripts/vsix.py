"""Makes VS Code's extension of the files of share/editors/vscode, with what is in Python's standard library.

    vsix [FOLDER]   makes it in FOLDER (else out): pp6600-debug-VERSION.vsix, whose version is that of package.json

The same files make the same bytes: the names are sorted, nothing is compressed, and dates and modes are fixed."""

import json
import os
from xml.sax.saxutils import escape, quoteattr

from packaging import TOP, fail, folder

from pp6600.shell.archives import zipped

SOURCE = os.path.join(TOP, "share", "editors", "vscode")
TYPES = {".json": "application/json", ".vsixmanifest": "text/xml"}
CONTENT_TYPES = """<?xml version="1.0" encoding="utf-8"?>
<Types xmlns="http://schemas.openxmlformats.org/package/2006/content-types">
{}</Types>
"""
MANIFEST = """<?xml version="1.0" encoding="utf-8"?>
<PackageManifest Version="2.0.0" xmlns="http://schemas.microsoft.com/developer/vsx-schema/2011">
  <Metadata>
    <Identity Language="en-US" Id={name} Version={version} Publisher={publisher}/>
    <DisplayName>{displayName}</DisplayName>
    <Description xml:space="preserve">{description}</Description>
    <Categories>{categories}</Categories>
    <Properties>
      <Property Id="Microsoft.VisualStudio.Code.Engine" Value={engine}/>
      <Property Id="Microsoft.VisualStudio.Code.ExtensionKind" Value={kind}/>
    </Properties>
  </Metadata>
  <Installation>
    <InstallationTarget Id="Microsoft.VisualStudio.Code"/>
  </Installation>
  <Dependencies/>
  <Assets>
    <Asset Type="Microsoft.VisualStudio.Code.Manifest" Path="extension/package.json" Addressable="true"/>
  </Assets>
</PackageManifest>
"""


def extension():
    """Returns the files of the extension, by their names in the archive."""
    found = {}
    for parent, _, names in os.walk(SOURCE):
        for name in names:
            path = os.path.join(parent, name)
            if os.path.splitext(name)[1] not in TYPES:
                fail(f"{os.path.relpath(path, TOP)} is of a type that is not in TYPES")
            with open(path, "rb") as file:
                found[f"extension/{os.path.relpath(path, SOURCE)}"] = file.read()
    return found


def manifest(package):
    """Returns the manifest, by the text of package.json."""
    texts = {name: escape(package[name]) for name in ("displayName", "description")}
    values = {name: quoteattr(package[name]) for name in ("name", "version", "publisher")}
    return MANIFEST.format(**texts, **values, categories=escape(",".join(package["categories"])),
                           engine=quoteattr(package["engines"]["vscode"]),
                           kind=quoteattr(",".join(package["extensionKind"]))).encode()


def main():
    target = folder(__doc__)
    try:
        files = extension()
        package = json.loads(files["extension/package.json"])
        files["extension.vsixmanifest"] = manifest(package)
        types = "".join(f'  <Default Extension="{name}" ContentType="{kind}"/>\n' for name, kind in sorted(TYPES.items()))
        files["[Content_Types].xml"] = CONTENT_TYPES.format(types).encode()
        os.makedirs(target, exist_ok=True)
        path = os.path.join(target, f"{package['name']}-{package['version']}.vsix")
        with open(path, "wb") as file:
            file.write(zipped({name: (data, False) for name, data in files.items()}))
    except OSError as error:
        fail(f"can't use {error.filename}: {error.strerror}")
    print(f"vsix: {path}")
