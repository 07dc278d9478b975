# Completes the words of `puzzles` and of its tools in fish.

function __puzzles_takes --description 'Whether the command is among these'
    set -l words (commandline -opc)
    contains -- "$words[2]" $argv
end

function __puzzles_has --description 'Whether a word is among these'
    for word in (commandline -opc | string replace -r '=.*' '')
        contains -- $word $argv; and return
    end
    return 1
end

function __puzzles_option --description 'Whether an option may come: of these commands, not yet given, and not behind --'
    __puzzles_takes $argv[2..]; and not __puzzles_has --$argv[1] --
end

complete -c puzzles -f
complete -c puzzles -n 'test (count (commandline -opc)) -eq 1' -a solve -d 'tell the solutions'
complete -c puzzles -n 'test (count (commandline -opc)) -eq 1' -a check -d 'tell whether a grid is a solution'
complete -c puzzles -n 'test (count (commandline -opc)) -eq 1' -a grade -d 'tell how hard a puzzle is'
complete -c puzzles -n 'test (count (commandline -opc)) -eq 1' -a generate -d 'make a puzzle with one solution'
complete -c puzzles -n '__puzzles_takes solve check grade generate; and not __puzzles_has solo pattern lightup tents' \
    -a 'solo pattern lightup tents'
complete -c puzzles -n '__puzzles_option budget solve grade generate' -l budget -x -d 'trials that a search may make'
complete -c puzzles -n '__puzzles_option trace grade' -l trace -d 'add the steps of the deduction'
complete -c puzzles -n '__puzzles_option seed generate' -l seed -x -d 'the seed of the puzzle'
complete -c puzzles -n '__puzzles_option tries generate' -l tries -x -d 'solved grids that are tried'
complete -c puzzles -n '__puzzles_option black generate; and __puzzles_has pattern lightup' -l black -x -d 'black cells, per cent'

# A tool tells its options by --help. Files come where no option does.
function __puzzles_told --description 'The options of a tool'
    set -l words (commandline -opc)
    $words[1] --help 2>/dev/null | string match -ar -- '--[a-z][a-z-]*' | sort -u
end

for tool in book collect convert drawing ids page page-static
    complete -c puzzles-$tool -n 'string match -q -- "-*" (commandline -ct)' -f -a '(__puzzles_told)'
end
