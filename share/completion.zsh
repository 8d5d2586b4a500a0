#compdef pp6600 -p pp6600-*
# Completions of pp6600 and its tools for zsh.
local -a options
case $words[CURRENT-1] in
    # the values of options
esac
if [[ $PREFIX == -* ]]; then
    # The options are those that --help prints.
    options=(--help ${(uf)"$($words[1] --help 2>/dev/null </dev/null | grep -oE -- '--[a-z][a-z-]*')"})
    compadd -a options
else
    _files
fi
