complete -c ether_tool -l help -d 'Print help'
complete -c ether_tool -l version -d 'Print version'
complete -c ether_tool -f -a "eth fcs sll type feed limit"
