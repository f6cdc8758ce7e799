// The records of a zone file by miekg/dns: `miekg FILE ORIGIN`, in the lines of zone_zscanner.c.
package main

import (
	"encoding/hex"
	"fmt"
	"os"

	"github.com/miekg/dns"
)

func digits(octets []byte) string {
	if len(octets) == 0 {
		return "-"
	}
	return hex.EncodeToString(octets)
}

func main() {
	file, err := os.Open(os.Args[1])
	if err != nil {
		os.Exit(2)
	}
	octets := make([]byte, 1<<17)
	parser := dns.NewZoneParser(file, os.Args[2], "")
	for record, ok := parser.Next(); ok; record, ok = parser.Next() {
		end, err := dns.PackRR(record, octets, 0, nil, false)
		if err != nil {
			fmt.Println("error", err)
			return
		}
		_, at, _ := dns.UnpackDomainName(octets, 0)
		head := record.Header()
		fmt.Println(digits(octets[:at]), head.Rrtype, head.Class, head.Ttl, digits(octets[at+10:end]))
	}
	if err := parser.Err(); err != nil {
		fmt.Println("error", err)
	}
}
