// The tool's work by gopacket's DecodingLayerParser: lines of hexadecimal digits in, lines of headers out. It has no MACsec and no offsets in
// its errors: a refusal is `fault ? ? TEXT`. gptool [sll] < FILE
package main

import (
	"bufio"
	"encoding/binary"
	"encoding/hex"
	"os"
	"strconv"

	"github.com/google/gopacket"
	"github.com/google/gopacket/layers"
)

const up = "0123456789ABCDEF"

func t4(o []byte, v uint16) []byte {
	return append(o, '0', 'x', up[v>>12], up[v>>8&15], up[v>>4&15], up[v&15])
}
func hx(o []byte, b []byte) []byte {
	n := len(o)
	o = append(o, make([]byte, 2*len(b))...)
	hex.Encode(o[n:], b)
	return o
}
func num(o []byte, s string, n int) []byte { return strconv.AppendInt(append(o, s...), int64(n), 10) }

func main() {
	first := gopacket.LayerType(layers.LayerTypeEthernet)
	if len(os.Args) > 1 && os.Args[1] == "sll" {
		first = layers.LayerTypeLinuxSLL
	}
	var eth layers.Ethernet
	var sll layers.LinuxSLL
	var arp layers.ARP
	var q layers.Dot1Q
	p := gopacket.NewDecodingLayerParser(first)
	p.SetDecodingLayerContainer(gopacket.DecodingLayerSparse(nil))
	for _, l := range []gopacket.DecodingLayer{&eth, &sll, &arp, &q} {
		p.AddDecodingLayer(l)
	}
	p.IgnoreUnsupported = true
	dec := make([]gopacket.LayerType, 0, 16)
	in := bufio.NewScanner(os.Stdin)
	in.Buffer(make([]byte, 1<<16), 1<<16)
	out := bufio.NewWriterSize(os.Stdout, 1<<16)
	defer out.Flush()
	var buf [2048]byte
	var o []byte
	for in.Scan() {
		n, err := hex.Decode(buf[:], in.Bytes())
		if err != nil {
			return
		}
		b := buf[:n:n]
		o = o[:0]
		err = p.DecodeLayers(b, &dec)
		at, typ, after := 0, uint16(0), false
		for _, d := range dec {
			switch d {
			case layers.LayerTypeEthernet:
				typ = binary.BigEndian.Uint16(b[12:14])
				o = t4(append(hx(append(hx(append(o, "ethernet2 0 "...), eth.DstMAC), ' '), eth.SrcMAC), ' '), typ)
				at = 14
			case layers.LayerTypeLinuxSLL:
				typ = uint16(sll.EthernetType)
				o = num(num(num(o, "linux_sll 0 packet ", int(sll.PacketType)), " hw ", int(sll.AddrType)), " alen ", int(sll.AddrLen))
				o = t4(append(hx(append(o, " addr "...), b[6:14]), ' '), typ)
				at = 16
			case layers.LayerTypeDot1Q:
				// a DecodingLayer is reused: of stacked tags only the last is left, so its own bytes are read again
				tci := binary.BigEndian.Uint16(b[at:])
				typ = binary.BigEndian.Uint16(b[at+2:])
				o = num(num(num(num(o, "vlan ", at), " pcp ", int(tci>>13)), " dei ", int(tci>>12&1)), " vid ", int(tci&0xFFF))
				o = t4(append(o, ' '), typ)
				at += 4
			case layers.LayerTypeARP:
				o = num(num(num(o, "arp ", at), " hw ", int(arp.AddrType)), " proto ", 0)
				o = o[:len(o)-1]
				o = t4(o, uint16(arp.Protocol))
				o = num(num(num(o, " hlen ", int(arp.HwAddressSize)), " plen ", int(arp.ProtAddressSize)), " op ", int(arp.Operation))
				at += len(arp.Contents)
				after = true
			}
			o = append(o, '\n')
		}
		if err != nil {
			o = append(append(append(o, "fault ? ? "...), err.Error()...), '\n')
		} else {
			o = num(num(append(o, "rest"...), " ", at), " ", n)
			if after {
				o = append(o, " after_arp\n"...)
			} else {
				o = append(t4(append(o, " type "...), typ), '\n')
			}
		}
		out.Write(o)
	}
}
