complete -c ether_capture -s r -d 'read FILE, as if it was named alone' -r -F
complete -c ether_capture -l jobs -d 'make lines in N threads, where the program has threads; the output is the same' -r -f
complete -c ether_capture -l select -d 'only packets that match EXPR, as \'vlan 5 or arp\'' -r -f
complete -c ether_capture -l undecided -d 'with --select, keep or drop packets that were cut too short to tell, in place of taking them as they are' -r -f -a "{keep	,drop	}"
complete -c ether_capture -s c -d 'end with the N-th of these packets, of all files together' -r -f
complete -c ether_capture -l limit -d 'read N VLAN tags and SecTags of each packet at most' -r -f
complete -c ether_capture -l format -d 'print lines as ever; or each packet on a line of its own, for the eye, as an object of JSON or, with --fields, as CSV, without totals' -r -f -a "{lines	,brief	,json	,csv	}"
complete -c ether_capture -l fields -d 'print the values of COLUMNS, as frame.number,vlan.vid,eth.src, with tabs; more than one value with commas' -r -f
complete -c ether_capture -l by -d 'with --stats, count by the values of all COLUMNS together, as arp.spa,arp.sha' -r -f
complete -c ether_capture -l status-on-fault -d 'exit with 1 if headers of a packet are wrong or cut: yes, as ever, or no' -r -f -a "{yes	,no	}"
complete -c ether_capture -s w -d 'write it to the file COPY, which changes only once all is written; without --write, too' -r -F
complete -c ether_capture -l push-vlan -d 'with --write, put a VLAN tag after the link\'s header, as 0x8100:5' -r -f
complete -c ether_capture -l set-vlan -d 'with --write, give the outermost VLAN tag with identifier A identifier B' -r -f
complete -c ether_capture -l progress -d 'show on standard error how many bytes are read, and how fast'
complete -c ether_capture -l plain -d 'leave out the lines of packets and the totals'
complete -c ether_capture -l bytes -d 'with --format json, also print the bytes after the headers of a packet, and reserved bits that are not 0'
complete -c ether_capture -l header -d 'with --fields, print a line of the names first'
complete -c ether_capture -l stats -d 'count packets and bytes by the values of COLUMNS, or without --fields of headers, VLANs, types, faults and ARP senders'
complete -c ether_capture -l merge -d 'add up counts that --stats has printed, which are read from standard input'
complete -c ether_capture -l write -d 'write the capture itself to standard output, of one FILE at most, without the other packets'
complete -c ether_capture -l cut-to-headers -d 'with --write, cut each packet where its link-layer headers end'
complete -c ether_capture -l pop-vlan -d 'with --write, take the VLAN tag after the link\'s header off each frame'
complete -c ether_capture -s h -l help -d 'Print help information'
complete -c ether_capture -s V -l version -d 'Print version information'
