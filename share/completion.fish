# Completions of pp6600 and its tools for fish, which reads this file by the name of the command.
set -l command (status basename | string replace -r '\.fish$' '')
function __pp6600_options # the options are those that --help prints
    echo --help
    $argv[1] --help 2>/dev/null </dev/null | string match -arg -- '(--[a-z][a-z-]*)'
end
complete -c $command -n 'string match -q -- "-*" (commandline -ct)' -f -a "(__pp6600_options $command)"
# the values of options
