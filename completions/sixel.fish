# Completions of sixel for fish, by `completions/check --write`.

# Whether the word after `sixel` is this one; with a number, whether there are as many words before the cursor, too.
function __fish_sixel_is
    set -l words (commandline -opc)
    test "$words[2]" = "$argv[1]"; and begin
        not set -q argv[2]; or test (count $words) -eq $argv[2]
    end
end

# The values for a list of these names at the cursor: each, and after a comma each that isn't there yet. `all` stands by
# itself.
function __fish_sixel_names
    set -l front (commandline -ct | string replace -rf -- '^(--\w+=)?(.*,)[^,]*$' '$2')
    if test -z "$front"
        printf '%s\n' $argv
        return
    end
    for name in $argv
        if test $name != all; and not string match -qr -- ",($name|all)," ",$front"
            echo $front$name
        end
    end
end

complete -c sixel -f
complete -c sixel -n __fish_use_subcommand -s h -l help -d 'Print help'
complete -c sixel -n __fish_use_subcommand -s V -l version -d 'Print version'
complete -c sixel -n __fish_use_subcommand -a list -d 'Lists the commands of the picture, one per line'
complete -c sixel -n __fish_use_subcommand -a check -d 'Says whether the picture is portable, or which rule it breaks first'
complete -c sixel -n __fish_use_subcommand -a survey -d 'Says which rules the picture breaks, how often, and where first'
complete -c sixel -n __fish_use_subcommand -a scan -d 'Checks each picture in what a program writes to a terminal'
complete -c sixel -n __fish_use_subcommand -a render -d 'Converts a portable picture to a PPM or a PNG'
complete -c sixel -n __fish_use_subcommand -a encode -d 'Converts a PPM to portable sixel text'
complete -c sixel -n __fish_use_subcommand -a show -d 'Draws the picture as one terminal would, and writes its screen'
complete -c sixel -n __fish_use_subcommand -a differ -d 'Says which of four terminals show the picture differently, and where'
complete -c sixel -n __fish_use_subcommand -a mend -d 'Makes a portable picture of what one terminal shows of a broken one'
complete -c sixel -n __fish_use_subcommand -a explain -d 'Explains rules and refusals by their names, or lists all names'
complete -c sixel -n __fish_use_subcommand -a help -d 'Print this message or the help of the given subcommand(s)'

complete -c sixel -n '__fish_sixel_is list' -F
complete -c sixel -n '__fish_sixel_is list' -s h -l help -d 'Print help'
complete -c sixel -n '__fish_sixel_is list' -s V -l version -d 'Print version'

complete -c sixel -n '__fish_sixel_is check' -F
complete -c sixel -n '__fish_sixel_is check' -l wide -d 'Use 256 colour registers instead of 16'
complete -c sixel -n '__fish_sixel_is check' -l on -x -a '(__fish_sixel_names xterm mlterm foot konsole all)' -d 'Count the rules of these terminals, too: xterm, mlterm, foot, konsole or all'
complete -c sixel -n '__fish_sixel_is check' -l ignore -x -a '(__fish_sixel_names RasterLate Dropped Stale Large Rows Past Hue Far Introducer Bare SpaceAfter)' -d 'With --on: leave out these rules of terminals, such as Rows,Past'
complete -c sixel -n '__fish_sixel_is check' -s q -l quiet -d 'Print no result; use the exit status'
complete -c sixel -n '__fish_sixel_is check' -l failed -d 'Print only the lines of files that aren\'t portable'
complete -c sixel -n '__fish_sixel_is check' -l json -d 'Print objects of JSON, one a line, also for refusals'
complete -c sixel -n '__fish_sixel_is check' -l explain -d 'End with a hint on each rule or refusal, also into a pipe'
complete -c sixel -n '__fish_sixel_is check' -s h -l help -d 'Print help'
complete -c sixel -n '__fish_sixel_is check' -s V -l version -d 'Print version'

complete -c sixel -n '__fish_sixel_is survey' -F
complete -c sixel -n '__fish_sixel_is survey' -l wide -d 'Use 256 colour registers instead of 16'
complete -c sixel -n '__fish_sixel_is survey' -l on -x -a '(__fish_sixel_names xterm mlterm foot konsole all)' -d 'Count the rules of these terminals, too: xterm, mlterm, foot, konsole or all'
complete -c sixel -n '__fish_sixel_is survey' -l ignore -x -a '(__fish_sixel_names RasterLate Dropped Stale Large Rows Past Hue Far Introducer Bare SpaceAfter)' -d 'With --on: leave out these rules of terminals, such as Rows,Past'
complete -c sixel -n '__fish_sixel_is survey' -s q -l quiet -d 'Print no result; use the exit status'
complete -c sixel -n '__fish_sixel_is survey' -l failed -d 'Print only the lines of files that aren\'t portable'
complete -c sixel -n '__fish_sixel_is survey' -l json -d 'Print objects of JSON, one a line, also for refusals'
complete -c sixel -n '__fish_sixel_is survey' -l explain -d 'End with a hint on each rule or refusal, also into a pipe'
complete -c sixel -n '__fish_sixel_is survey' -s h -l help -d 'Print help'
complete -c sixel -n '__fish_sixel_is survey' -s V -l version -d 'Print version'

complete -c sixel -n '__fish_sixel_is scan' -F
complete -c sixel -n '__fish_sixel_is scan' -l wide -d 'Use 256 colour registers instead of 16'
complete -c sixel -n '__fish_sixel_is scan' -s q -l quiet -d 'Leave out the note on wrapped pictures'
complete -c sixel -n '__fish_sixel_is scan' -l eight-bit -d 'Let the bytes 90 and 9C start and end a picture, too'
complete -c sixel -n '__fish_sixel_is scan' -l json -d 'Print objects of JSON, one a line, also for refusals'
complete -c sixel -n '__fish_sixel_is scan' -s h -l help -d 'Print help'
complete -c sixel -n '__fish_sixel_is scan' -s V -l version -d 'Print version'

complete -c sixel -n '__fish_sixel_is render' -F
complete -c sixel -n '__fish_sixel_is render' -l wide -d 'Use 256 colour registers instead of 16'
complete -c sixel -n '__fish_sixel_is render' -l png -d 'Write a PNG instead of a PPM'
complete -c sixel -n '__fish_sixel_is render' -s h -l help -d 'Print help'
complete -c sixel -n '__fish_sixel_is render' -s V -l version -d 'Print version'

complete -c sixel -n '__fish_sixel_is encode' -F
complete -c sixel -n '__fish_sixel_is encode' -l wide -d 'Use 256 colour registers instead of 16'
complete -c sixel -n '__fish_sixel_is encode' -l on -x -a '(__fish_sixel_names xterm mlterm foot konsole all)' -d 'Write what these terminals show: xterm, mlterm, foot, konsole or all'
complete -c sixel -n '__fish_sixel_is encode' -l pad -x -d 'With --on: the rows below, in percent, or \'#RRGGBB\' [default: 0,0,0]'
complete -c sixel -n '__fish_sixel_is encode' -s h -l help -d 'Print help'
complete -c sixel -n '__fish_sixel_is encode' -s V -l version -d 'Print version'

complete -c sixel -n '__fish_sixel_is show' -F
complete -c sixel -n '__fish_sixel_is show' -l wide -d 'Use 256 colour registers instead of 16'
complete -c sixel -n '__fish_sixel_is show' -s q -l quiet -d 'Leave out the note on a register above 15'
complete -c sixel -n '__fish_sixel_is show' -l showing -d 'Show each pixel in the final colour of its register'
complete -c sixel -n '__fish_sixel_is show' -l fill -d 'Fill the declared box with register 0'
complete -c sixel -n '__fish_sixel_is show' -l define-selects -d 'Let a colour definition also select its register'
complete -c sixel -n '__fish_sixel_is show' -l width -x -d 'The screen\'s width in pixels, 1 to 4096 [default: 800]'
complete -c sixel -n '__fish_sixel_is show' -l height -x -d 'The screen\'s height in pixels, 1 to 4096 [default: 480]'
complete -c sixel -n '__fish_sixel_is show' -l box -d 'Make the screen as large as the declared box'
complete -c sixel -n '__fish_sixel_is show' -l on -x -a 'xterm mlterm foot konsole' -d 'Draw as this terminal does: xterm, mlterm, foot or konsole'
complete -c sixel -n '__fish_sixel_is show' -l background -x -d 'With --on: the screen before the picture, in percent, \'#RRGGBB\' or a name [default: 100,100,100]'
complete -c sixel -n '__fish_sixel_is show' -l png -d 'Write a PNG instead of a PPM'
complete -c sixel -n '__fish_sixel_is show' -s h -l help -d 'Print help'
complete -c sixel -n '__fish_sixel_is show' -s V -l version -d 'Print version'

complete -c sixel -n '__fish_sixel_is differ' -F
complete -c sixel -n '__fish_sixel_is differ' -l background -x -d 'The screens before the picture, in percent, \'#RRGGBB\' or a name [default: 100,100,100]'
complete -c sixel -n '__fish_sixel_is differ' -l sheet -d 'Write the four screens side by side, as a PPM, instead'
complete -c sixel -n '__fish_sixel_is differ' -s h -l help -d 'Print help'
complete -c sixel -n '__fish_sixel_is differ' -s V -l version -d 'Print version'

complete -c sixel -n '__fish_sixel_is mend' -F
complete -c sixel -n '__fish_sixel_is mend' -l wide -d 'Use 256 colour registers instead of 16'
complete -c sixel -n '__fish_sixel_is mend' -s q -l quiet -d 'Leave out the note on pixels in the background\'s colour'
complete -c sixel -n '__fish_sixel_is mend' -l background -x -d 'What isn\'t painted: red, green and blue in percent, \'#RRGGBB\' or a name [default: 0,0,0]'
complete -c sixel -n '__fish_sixel_is mend' -l showing -d 'Show each pixel in the final colour of its register'
complete -c sixel -n '__fish_sixel_is mend' -l define-selects -d 'Let a colour definition also select its register'
complete -c sixel -n '__fish_sixel_is mend' -l on -x -a '(__fish_sixel_names xterm mlterm foot konsole all)' -d 'Write what these terminals show: xterm, mlterm, foot, konsole or all'
complete -c sixel -n '__fish_sixel_is mend' -l pad -x -d 'With --on: the rows below [default: the colour of --background]'
complete -c sixel -n '__fish_sixel_is mend' -s h -l help -d 'Print help'
complete -c sixel -n '__fish_sixel_is mend' -s V -l version -d 'Print version'

complete -c sixel -n '__fish_sixel_is explain' -s h -l help -d 'Print help'
complete -c sixel -n '__fish_sixel_is explain' -s V -l version -d 'Print version'
complete -c sixel -n '__fish_sixel_is explain' -a RasterFirst -d 'data, return, new line or terminator before any raster attributes'
complete -c sixel -n '__fish_sixel_is explain' -a RasterTwice -d 'raster attributes more than once'
complete -c sixel -n '__fish_sixel_is explain' -a Ratio -d 'a pixel aspect ratio not written as 1;1'
complete -c sixel -n '__fish_sixel_is explain' -a BoxSize -d 'a width or height outside 1 to 2,048'
complete -c sixel -n '__fish_sixel_is explain' -a Register -d 'a register above 15, or above 255 with --wide'
complete -c sixel -n '__fish_sixel_is explain' -a ColourValue -d 'a colour system other than 1 or 2, or a coordinate out of range'
complete -c sixel -n '__fish_sixel_is explain' -a RepeatZero -d 'a repeat of 0'
complete -c sixel -n '__fish_sixel_is explain' -a Unselected -d 'painting while no register is known'
complete -c sixel -n '__fish_sixel_is explain' -a Undefined -d 'painting in a register that is not defined yet'
complete -c sixel -n '__fish_sixel_is explain' -a Redefined -d 'a different colour for a register already painted in'
complete -c sixel -n '__fish_sixel_is explain' -a Outside -d 'a set bit outside the box'
complete -c sixel -n '__fish_sixel_is explain' -a Uncovered -d 'a pixel of the box that no set bit covers, at the terminator'
complete -c sixel -n '__fish_sixel_is explain' -a EightBit -d 'the byte 90 as the introducer, or 9C as the terminator'
complete -c sixel -n '__fish_sixel_is explain' -a RasterLate -d 'raster attributes after a selection or a definition'
complete -c sixel -n '__fish_sixel_is explain' -a Dropped -d 'a return right after a selection, definition or raster attributes'
complete -c sixel -n '__fish_sixel_is explain' -a Stale -d 'painting in a colour that came after the selection'
complete -c sixel -n '__fish_sixel_is explain' -a Large -d 'a width above 1,000 or a height above 996'
complete -c sixel -n '__fish_sixel_is explain' -a Rows -d 'a height that is no multiple of six'
complete -c sixel -n '__fish_sixel_is explain' -a Past -d 'blanks right of the box or below it'
complete -c sixel -n '__fish_sixel_is explain' -a Hue -d 'a colour of hue, lightness and saturation'
complete -c sixel -n '__fish_sixel_is explain' -a Far -d 'sixels right of the box, far below it or past column 32,767'
complete -c sixel -n '__fish_sixel_is explain' -a Introducer -d 'an introducer by which xterm draws nothing or mlterm may mix colours'
complete -c sixel -n '__fish_sixel_is explain' -a Bare -d 'a selection without a number'
complete -c sixel -n '__fish_sixel_is explain' -a SpaceAfter -d 'a space after the terminator'
complete -c sixel -n '__fish_sixel_is explain' -a NotSixel -d 'input that doesn\'t start like a sixel string'
complete -c sixel -n '__fish_sixel_is explain' -a BadByte -d 'unexpected byte'
complete -c sixel -n '__fish_sixel_is explain' -a NumberTooLarge -d 'a number above 65,535'
complete -c sixel -n '__fish_sixel_is explain' -a FieldCount -d 'too many or too few numbers in a command'
complete -c sixel -n '__fish_sixel_is explain' -a BadRepeat -d 'a repeat without a sixel after its count'
complete -c sixel -n '__fish_sixel_is explain' -a BadTerminator -d 'an ESC that isn\'t followed by \\'
complete -c sixel -n '__fish_sixel_is explain' -a Truncated -d 'input that ends before the terminator is complete'
complete -c sixel -n '__fish_sixel_is explain' -a TooLong -d 'input of more than 268,435,456 bytes'
complete -c sixel -n '__fish_sixel_is explain' -a Trailing -d 'data after the terminator, or after the last sample of a PPM'
complete -c sixel -n '__fish_sixel_is explain' -a Header -d 'not a valid P6 header'
complete -c sixel -n '__fish_sixel_is explain' -a Size -d 'a PPM width or height outside 1 to 2,048'
complete -c sixel -n '__fish_sixel_is explain' -a Maxval -d 'a PPM maxval outside 1 to 255'
complete -c sixel -n '__fish_sixel_is explain' -a Sample -d 'a PPM sample above the maxval'
complete -c sixel -n '__fish_sixel_is explain' -a TooManyColours -d 'a picture of more than 16 colours, or more than 256 with --wide'
complete -c sixel -n '__fish_sixel_is explain' -a Short -d 'a PPM that ends before its last sample'
complete -c sixel -n '__fish_sixel_is explain' -a NotRgb -d 'a colour of hue, lightness and saturation that would appear in a PPM'
complete -c sixel -n '__fish_sixel_is explain' -a NoBox -d 'a text that declares no box of a possible screen size'
complete -c sixel -n '__fish_sixel_is explain' -a Unmodelled -d 'a command that the model of the named terminal doesn\'t cover'
complete -c sixel -n '__fish_sixel_is explain' -a NoString -d 'input to scan that has no sixel string'
complete -c sixel -n '__fish_sixel_is explain' -a Empty -d 'a text that paints nothing and declares no width or no height'
complete -c sixel -n '__fish_sixel_is explain' -a TooLarge -d 'a text for mend or differ whose picture has a side above 2,048'
complete -c sixel -n '__fish_sixel_is explain' -a OutOfMemory -d 'an allocation failed'
complete -c sixel -n '__fish_sixel_is explain' -a Read -d 'input that couldn\'t be opened or read'
complete -c sixel -n '__fish_sixel_is explain' -a Write -d 'output that couldn\'t be written'

complete -c sixel -n '__fish_sixel_is help 2' -a list -d 'Lists the commands of the picture, one per line'
complete -c sixel -n '__fish_sixel_is help 2' -a check -d 'Says whether the picture is portable, or which rule it breaks first'
complete -c sixel -n '__fish_sixel_is help 2' -a survey -d 'Says which rules the picture breaks, how often, and where first'
complete -c sixel -n '__fish_sixel_is help 2' -a scan -d 'Checks each picture in what a program writes to a terminal'
complete -c sixel -n '__fish_sixel_is help 2' -a render -d 'Converts a portable picture to a PPM or a PNG'
complete -c sixel -n '__fish_sixel_is help 2' -a encode -d 'Converts a PPM to portable sixel text'
complete -c sixel -n '__fish_sixel_is help 2' -a show -d 'Draws the picture as one terminal would, and writes its screen'
complete -c sixel -n '__fish_sixel_is help 2' -a differ -d 'Says which of four terminals show the picture differently, and where'
complete -c sixel -n '__fish_sixel_is help 2' -a mend -d 'Makes a portable picture of what one terminal shows of a broken one'
complete -c sixel -n '__fish_sixel_is help 2' -a explain -d 'Explains rules and refusals by their names, or lists all names'
complete -c sixel -n '__fish_sixel_is help 2' -a help -d 'Print this message or the help of the given subcommand(s)'
