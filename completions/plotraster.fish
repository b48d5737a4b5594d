# Fish completion of plotraster: its commands, their options, and the names of files.

function __plotraster_of --description 'Is the command one of these?'
    set -l words (commandline -opc)
    contains -- "$words[2]" $argv
end

function __plotraster_option --description 'An option of these commands'
    complete -c plotraster -n "__plotraster_of $argv[1]" $argv[2..]
end

set -l papers a0 a1 a2 a3 a4 a5 b4 letter legal tabloid ansi-a ansi-b ansi-c ansi-d ansi-e arch-d arch-e
set -l portraits $papers-portrait
set -l all draw png pdf svg dxf marks pbm ppm pcl report
set -l others png pdf svg dxf marks pbm ppm pcl report
set -l pictures draw png pdf svg dxf marks pbm ppm pcl
set -l pixels draw png marks pbm ppm pcl
set -l rows marks pbm ppm pcl

function __plotraster_command --description 'A command and what it does'
    complete -c plotraster -n 'test (count (commandline -opc)) -eq 1' -f -a $argv[1] -d $argv[2]
end

__plotraster_command draw 'Draw the whole plot, smoothed, as PNG or as the extension of the output file says'
__plotraster_command png 'Write a colour picture as PNG'
__plotraster_command pdf 'Write the lines themselves as PDF'
__plotraster_command svg 'Write the lines themselves as SVG'
__plotraster_command dxf 'Write the lines themselves as DXF'
__plotraster_command marks 'Write a line for each pixel that is drawn'
__plotraster_command pbm 'Write a black and white picture, Netpbm\'s portable bitmap (P4)'
__plotraster_command ppm 'Write a colour picture, Netpbm\'s portable pixmap (P6)'
__plotraster_command pcl 'Write a black and white picture for a printer, PCL 5 raster graphics'
__plotraster_command report 'Describe a plot'
complete -c plotraster -s h -l help -d 'Print help'
complete -c plotraster -n 'test (count (commandline -opc)) -eq 1' -s V -l version -d 'Print version'

__plotraster_option "$all" -x -l width -d 'Width of the page in plotter units of 1/40 mm'
__plotraster_option "$all" -x -l height -d 'Height of the page in plotter units of 1/40 mm'
__plotraster_option "$all" -x -l page -a "$papers $portraits plot" -d 'Paper of the page'
__plotraster_option "$all" -x -l left -d 'How far the page reaches left of the plot\'s (0,0), in plotter units'
__plotraster_option "$all" -x -l below -d 'How far the page reaches below the plot\'s (0,0), in plotter units'
__plotraster_option "$all" -l fit -d 'Fit the page to what the selected pens draw, and a margin'
__plotraster_option draw -x -l margin -d 'Margin around the drawing, if the page is fitted, in millimetres'
__plotraster_option "$others" -x -l margin -d 'Margin of --fit around the drawing, in millimetres'
__plotraster_option "$all" -x -l rotate -a '0 90 180 270' -d 'Turn the page counterclockwise, with all that is on it'
__plotraster_option "$all" -x -l profile -a 'core full' -d 'How the plot is read'
__plotraster_option "$all" -x -l sheet -d 'Sheet to draw in the profile full'
__plotraster_option "$all" -x -l characters -a 'roman-8 latin-1 windows-1252 pc-8 ascii utf-8' \
    -d 'How the bytes of labels are read in the profile full'
__plotraster_option "$all" -r -s o -l output -d 'File to write instead of standard output, or folder of the files to write'
__plotraster_option "$all" -l verbose -d 'Say on standard error what was drawn, what lies off the page, and what was skipped'
__plotraster_option "$all" -x -l colours -d 'Colours of pens, whatever the plot sets, as all=black,2=#f80'
__plotraster_option "$all" -x -l widths -d 'Widths of pens in millimetres, 0 to 20, whatever the plot sets, as all=0.35,2=0.7'
__plotraster_option "draw png marks pbm ppm" -x -l dots -a '75 100 150 200 300 600 1200' -d 'Resolution in dots per inch'
__plotraster_option pcl -x -l dots -a '75 100 150 200 300 600' -d 'Resolution in dots per inch'
__plotraster_option "$pictures" -x -l pens -a all \
    -d 'Pens to draw, each 1 to 255: \'all\', or pens and ranges separated by commas, as 1,3,5-7'
__plotraster_option "$pixels" -l progress \
    -d 'Show on standard error, if it is a terminal, how many rows of a long picture are written'
__plotraster_option draw -x -l size -d 'Most pixels of the picture\'s longer side'
__plotraster_option "draw png ppm" -x -l smooth -d 'Smoothing, 1 to 8'
__plotraster_option "draw dxf" -x -l labels -a 'text strokes' -d 'How a DXF has labels in the profile full'
__plotraster_option draw -x -l form -a 'png pdf svg dxf ppm pbm pcl marks' -d 'Form of the picture'
__plotraster_option draw -l quiet -d 'Show no progress, and do not say that little or nothing is drawn'
__plotraster_option "$rows" -x -l band -d 'Most rows of pixels painted at a time'
__plotraster_option "$rows" -x -l from -d 'First row of pixels to write, counted from 0 at the top'
__plotraster_option "$rows" -x -l rows -d 'Most rows of pixels to write'

functions --erase __plotraster_option __plotraster_command
