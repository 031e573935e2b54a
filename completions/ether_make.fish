complete -c ether_make -l count -d 'make N frames of each line' -r -f
complete -c ether_make -l seed -d 'draw the random numbers of ranges from N' -r -f
complete -c ether_make -l rate -d 'let N frames follow each other in a second' -r -f
complete -c ether_make -s w -d 'write to FILE, in place of standard output' -r -F
complete -c ether_make -l pad -d 'add zeros to frames of Ethernet that have fewer than 60 bytes, up to 60'
complete -c ether_make -l fcs -d 'append its check sequence to each frame of Ethernet'
complete -c ether_make -l hex -d 'write each frame as a line of hexadecimal digits, as ether_tool reads it'
complete -c ether_make -s h -l help -d 'Print help information'
complete -c ether_make -s V -l version -d 'Print version information'
