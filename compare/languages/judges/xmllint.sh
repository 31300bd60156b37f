#!/usr/bin/env bash
# The judge of XML Schema: libxml2, which validates elements of the type decimal, or of that of the argument.
set -euo pipefail
work=$(mktemp -d)
trap 'rm -rf "$work"' EXIT
cat > "$work/schema" <<XML
<schema xmlns="http://www.w3.org/2001/XMLSchema">
    <element name="all"><complexType><sequence>
        <element name="it" type="${1:-decimal}" maxOccurs="unbounded"/>
    </sequence></complexType></element>
</schema>
XML
split --lines=10000 --suffix-length=4 - "$work/texts" # libxml2 counts no more than 65,535 lines
for texts in "$work"/texts*; do
    { printf '<all>'; sed 's/&/\&amp;/g; s/</\&lt;/g; s/.*/<it>&<\/it>/' "$texts"; printf '</all>'; } > "$work/document"
    { xmllint --noout --schema "$work/schema" "$work/document" 2>&1 || true; } |
        sed -n "s|^$work/document:\([0-9]*\): element it: .* is not a valid value .*|\1|p" > "$work/refused"
    awk 'NR == FNR { refused[$1] = 1; next } { print (FNR in refused) ? "-" : "+" }' "$work/refused" "$texts"
done
