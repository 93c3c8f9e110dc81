"""The extension for VS Code."""

import json
from xml.sax.saxutils import escape, quoteattr

from bindings.shared import TOP, version

from .about import about, licences
from .archives import File, read, under, zipped

VSCODE = TOP / "editors/vscode"
FILES = [
    "README.md", "answers.js", "client.js", "connection.js", "extension.js", "language.json", "package.json",
    "syntaxes/graphql.tmLanguage.json",
]
# What a file is for the editor, beside those that package.json names.
ASSETS = {
    "Microsoft.VisualStudio.Code.Manifest": "package.json",
    "Microsoft.VisualStudio.Services.Content.Details": "README.md",
    "Microsoft.VisualStudio.Services.Content.Changelog": "CHANGELOG.md",
    "Microsoft.VisualStudio.Services.Content.License": "LICENSE.txt",
}
TYPES = {
    "js": "application/javascript", "json": "application/json", "md": "text/markdown", "txt": "text/plain",
    "vsixmanifest": "text/xml",
}


def content_types():
    lines = "".join(f'<Default Extension=".{ending}" ContentType="{kind}"/>' for ending, kind in TYPES.items())
    return (
        '<?xml version="1.0" encoding="utf-8"?>\n<Types'
        f' xmlns="http://schemas.openxmlformats.org/package/2006/content-types">{lines}</Types>\n'
    )


def manifest():
    """What the editor reads of the package before it opens the extension."""
    package, said = json.loads((VSCODE / "package.json").read_text()), about()
    identity = (
        f"Id={quoteattr(package['name'])} Version={quoteattr(package['version'])}"
        f" Publisher={quoteattr(package['publisher'])}"
    )
    links = {
        "Source": said["repository"], "Getstarted": said["homepage"], "Learn": said["documentation"],
        "Support": said["issues"],
    }
    assets = "\n".join(
        f'    <Asset Type="{kind}" Path="extension/{name}" Addressable="true"/>' for kind, name in ASSETS.items()
    )
    properties = "\n".join(
        f'      <Property Id="Microsoft.VisualStudio.Services.Links.{kind}" Value={quoteattr(link)}/>'
        for kind, link in links.items()
    )
    return f"""<?xml version="1.0" encoding="utf-8"?>
<PackageManifest Version="2.0.0" xmlns="http://schemas.microsoft.com/developer/vsx-schema/2011">
  <Metadata>
    <Identity Language="en-US" {identity}/>
    <DisplayName>{escape(package["displayName"])}</DisplayName>
    <Description xml:space="preserve">{escape(package["description"])}</Description>
    <Tags>{escape(",".join(package["keywords"]))}</Tags>
    <Categories>{escape(",".join(package["categories"]))}</Categories>
    <Properties>
      <Property Id="Microsoft.VisualStudio.Code.Engine" Value={quoteattr(package["engines"]["vscode"])}/>
      <Property Id="Microsoft.VisualStudio.Code.ExtensionKind" Value="workspace"/>
{properties}
    </Properties>
    <License>extension/LICENSE.txt</License>
  </Metadata>
  <Installation>
    <InstallationTarget Id="Microsoft.VisualStudio.Code"/>
  </Installation>
  <Dependencies/>
  <Assets>
{assets}
  </Assets>
</PackageManifest>
"""


def vsix():
    """For VS Code and what comes from it."""
    files = {name: read(VSCODE / name) for name in FILES}
    files |= licences(".txt") | {"CHANGELOG.md": read(TOP / "CHANGELOG.md")}
    parts = {"extension.vsixmanifest": File(manifest().encode()), "[Content_Types].xml": File(content_types().encode())}
    return f"gqlls-{version()}.vsix", zipped(parts | under("extension", files))
