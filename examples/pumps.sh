#!/bin/sh
# Writes the plot of examples/pumps.plt: a diagram as dia writes it, with labels in UTF-8.
#
#     examples/pumps.sh > examples/pumps.plt          needs Debian's dia and xvfb
folder=$(mktemp -d)
trap 'rm -r "$folder"' EXIT
{
    echo '<?xml version="1.0" encoding="UTF-8"?>'
    echo '<dia:diagram xmlns:dia="http://www.lysator.liu.se/~alla/dia/"><dia:diagramdata/>'
    echo '<dia:layer name="Background" visible="true" active="true">'
    n=0
    while read -r x text; do
        n=$((n + 1))
        cat <<END
<dia:object type="Standard - Box" version="0" id="B$n"><dia:attribute name="elem_corner"><dia:point val="$x,2"/></dia:attribute>
<dia:attribute name="elem_width"><dia:real val="9"/></dia:attribute><dia:attribute name="elem_height"><dia:real val="3"/></dia:attribute></dia:object>
<dia:object type="Standard - Text" version="1" id="T$n"><dia:attribute name="obj_pos"><dia:point val="$x.5,3.7"/></dia:attribute>
<dia:attribute name="text"><dia:composite type="text">
<dia:attribute name="string"><dia:string>#$text#</dia:string></dia:attribute>
<dia:attribute name="height"><dia:real val="0.8"/></dia:attribute>
<dia:attribute name="pos"><dia:point val="$x.5,3.7"/></dia:attribute>
<dia:attribute name="color"><dia:color val="#000000"/></dia:attribute>
<dia:attribute name="alignment"><dia:enum val="0"/></dia:attribute></dia:composite></dia:attribute></dia:object>
END
    done <<END
2 Überlauf
13 Pumpe 4
24 9 m³/h
END
    echo '</dia:layer></dia:diagram>'
} > "$folder/pumps.dia"
xvfb-run -a dia -t hpgl -e "$folder/pumps.plt" "$folder/pumps.dia" > "$folder/log" 2>&1
cat "$folder/pumps.plt"
