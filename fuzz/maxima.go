// Reads messages as miekg/dns does: a message in hexadecimal on each line of standard input. It prints a line for each: its records,
// as maxima.py names them, or `-` if the library reads no message there.
package main

import (
	"bufio"
	"encoding/hex"
	"fmt"
	"os"

	"github.com/miekg/dns"
)

// shown returns the records of a message.
func shown(octets []byte) string {
	message := new(dns.Msg)
	if err := message.Unpack(octets); err != nil {
		return "-"
	}
	text := "0"
	if message.Truncated {
		text = "1"
	}
	for section, records := range [][]dns.RR{message.Answer, message.Ns, message.Extra} {
		for _, record := range records {
			head, wire := record.Header(), make([]byte, 70000)
			end, err := dns.PackRR(record, wire, 0, nil, false)
			owner, failed := dns.PackDomainName(head.Name, make([]byte, 256), 0, nil, false)
			if err != nil || failed != nil {
				return "-"
			}
			data := wire[owner+10 : end]
			text += fmt.Sprintf(" %d/%x/%d/%d/%d/%x", section+1, wire[:owner], head.Rrtype, head.Class, head.Ttl, data)
		}
	}
	return text
}

func main() {
	lines := bufio.NewScanner(os.Stdin)
	lines.Buffer(nil, 1<<18)
	for lines.Scan() {
		octets, err := hex.DecodeString(lines.Text())
		if err != nil {
			os.Exit(1)
		}
		fmt.Println(shown(octets))
	}
}
