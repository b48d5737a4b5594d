# Bash completion of plotraster: its commands, their options, and the names of files.
_plotraster() {
    local word="${COMP_WORDS[COMP_CWORD]}" before="${COMP_WORDS[COMP_CWORD - 1]}"
    local command="${COMP_WORDS[1]}" options="--width --height --page --left --below --fit --margin --rotate"
    local papers="a0 a1 a2 a3 a4 a5 b4 letter legal tabloid ansi-a ansi-b ansi-c ansi-d ansi-e arch-d arch-e"
    options="$options --profile --sheet --characters --output --verbose --colours --widths"
    COMPREPLY=()
    if [ "$COMP_CWORD" -eq 1 ]; then
        COMPREPLY=($(compgen -W "draw png pdf svg dxf marks pbm ppm pcl report --help --version" -- "$word"))
        return
    fi
    if [ "$command" != report ]; then
        case "$command" in
            pdf | svg | dxf) options="$options --pens" ;;
            *) options="$options --dots --pens --progress" ;;
        esac
        case "$command" in
            draw) options="$options --size --smooth --labels --form --quiet" ;;
            png) options="$options --smooth" ;;
            dxf) options="$options --labels" ;;
            pdf | svg) ;;
            ppm) options="$options --smooth --band --from --rows" ;;
            *) options="$options --band --from --rows" ;;
        esac
        case "$before" in
            --dots)
                local dots="75 100 150 200 300 600 1200"
                if [ "$command" = pcl ]; then
                    dots="75 100 150 200 300 600"
                fi
                COMPREPLY=($(compgen -W "$dots" -- "$word"))
                return
                ;;
            --pens)
                COMPREPLY=($(compgen -W "all" -- "$word"))
                return
                ;;
            --labels)
                COMPREPLY=($(compgen -W "text strokes" -- "$word"))
                return
                ;;
            --form)
                COMPREPLY=($(compgen -W "png pdf svg dxf ppm pbm pcl marks" -- "$word"))
                return
                ;;
            --size | --smooth | --band | --from | --rows) return ;;
        esac
    fi
    case "$before" in
        --page)
            COMPREPLY=($(compgen -W "$papers ${papers// /-portrait }-portrait plot" -- "$word"))
            return
            ;;
        --rotate)
            COMPREPLY=($(compgen -W "0 90 180 270" -- "$word"))
            return
            ;;
        --profile)
            COMPREPLY=($(compgen -W "core full" -- "$word"))
            return
            ;;
        --characters)
            COMPREPLY=($(compgen -W "roman-8 latin-1 windows-1252 pc-8 ascii utf-8" -- "$word"))
            return
            ;;
        -o | --output)
            COMPREPLY=($(compgen -f -- "$word"))
            return
            ;;
        --width | --height | --left | --below | --margin | --sheet | --colours | --colors | --widths) return ;;
    esac
    case "$word" in
        -*) COMPREPLY=($(compgen -W "$options --help" -- "$word")) ;;
        *) COMPREPLY=($(compgen -f -- "$word")) ;;
    esac
}
complete -o filenames -F _plotraster plotraster
