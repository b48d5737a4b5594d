#compdef plotraster
# Zsh completion of plotraster: its commands, their options, and the names of files.

_plotraster() {
    local -a commands=(
        'draw:Draw the whole plot, smoothed, as PNG or as the extension of the output file says'
        'png:Write a colour picture as PNG'
        'pdf:Write the lines themselves as PDF'
        'svg:Write the lines themselves as SVG'
        'dxf:Write the lines themselves as DXF'
        'marks:Write a line for each pixel that is drawn'
        "pbm:Write a black and white picture, Netpbm's portable bitmap (P4)"
        "ppm:Write a colour picture, Netpbm's portable pixmap (P6)"
        'pcl:Write a black and white picture for a printer, PCL 5 raster graphics'
        'report:Describe a plot'
    )
    if (( CURRENT == 2 )); then
        _arguments '(- *)'{-h,--help}'[Print help]' '(- *)'{-V,--version}'[Print version]' \
            "1:command:{_describe -t commands command commands}"
        return
    fi
    local command=$words[2] dots='75 100 150 200 300 600 1200' margin='Margin of --fit around the drawing, in millimetres'
    local -a papers=(a0 a1 a2 a3 a4 a5 b4 letter legal tabloid ansi-{a,b,c,d,e} arch-{d,e})
    local -a portraits=(${^papers}-portrait)
    case $command in
        draw) margin='Margin around the drawing, if the page is fitted, in millimetres' ;;
        pcl) dots='75 100 150 200 300 600' ;;
    esac
    local -a options=(
        '--width=[Width of the page in plotter units of 1/40 mm]:UNITS: '
        '--height=[Height of the page in plotter units of 1/40 mm]:UNITS: '
        "--page=[Paper of the page]:NAME:($papers $portraits plot)"
        "--left=[How far the page reaches left of the plot's (0,0), in plotter units]:UNITS: "
        "--below=[How far the page reaches below the plot's (0,0), in plotter units]:UNITS: "
        '--fit[Fit the page to what the selected pens draw, and a margin]'
        "--margin=[$margin]:MM: "
        '--rotate=[Turn the page counterclockwise, with all that is on it]:DEGREES:(0 90 180 270)'
        '--profile=[How the plot is read]:NAME:(core full)'
        '--sheet=[Sheet to draw in the profile full]:SHEET: '
        '--characters=[How the bytes of labels are read in the profile full]:NAME:(roman-8 latin-1 windows-1252 pc-8 ascii utf-8)'
        '(-o --output)'{-o+,--output=}'[File to write instead of standard output, or folder of the files to write]:PATH:_files'
        '--verbose[Say on standard error what was drawn, what lies off the page, and what was skipped]'
        '--colours=[Colours of pens, whatever the plot sets, as all=black,2=#f80]:LIST: '
        '--widths=[Widths of pens in millimetres, 0 to 20, whatever the plot sets, as all=0.35,2=0.7]:LIST: '
    )
    if [[ $command != report ]]; then
        options+=(
            "--pens=[Pens to draw, each 1 to 255: 'all', or pens and ranges separated by commas, as 1,3,5-7]:LIST:(all)"
        )
    fi
    case $command in
        pdf|svg|dxf|report) ;;
        *)
            options+=(
                "--dots=[Resolution in dots per inch]:DPI:($dots)"
                '--progress[Show on standard error, if it is a terminal, how many rows of a long picture are written]'
            )
            ;;
    esac
    case $command in
        draw)
            options+=(
                "--size=[Most pixels of the picture's longer side]:PIXELS: "
                '--form=[Form of the picture]:NAME:(png pdf svg dxf ppm pbm pcl marks)'
                '--quiet[Show no progress, and do not say that little or nothing is drawn]'
            )
            ;;
    esac
    case $command in
        draw|png|ppm) options+=('--smooth=[Smoothing, 1 to 8]:TIMES: ') ;;
    esac
    case $command in
        draw|dxf) options+=('--labels=[How a DXF has labels in the profile full]:NAME:(text strokes)') ;;
    esac
    case $command in
        marks|pbm|ppm|pcl)
            options+=(
                '--band=[Most rows of pixels painted at a time]:ROWS: '
                '--from=[First row of pixels to write, counted from 0 at the top]:ROW: '
                '--rows=[Most rows of pixels to write]:ROWS: '
            )
            ;;
    esac
    shift words
    (( CURRENT-- ))
    _arguments -s "$options[@]" '(- *)'{-h,--help}'[Print help]' '*:plot:_files'
}

_plotraster "$@"
