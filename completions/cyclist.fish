# Completes the words of cyclist in fish, from the usage line that the program itself writes: the commands, and a command's words.
function __cyclist_ways
    cyclist 2>/dev/null </dev/null | string replace 'usage: cyclist ' '' | string split ' | ' | string replace -ar '[][]' ''
end
complete -c cyclist -f
complete -c cyclist -n "test (count (commandline -opc)) = 1" -a "(__cyclist_ways | string split -f 1 ' ')"
complete -c cyclist -n "test (count (commandline -opc)) = 2" -a "(__cyclist_ways | string match -r '^'(commandline -opc)[2]' --\S+' | string split -f 2 ' ')"
