package pool_test

import (
	"fmt"

	"yimakohe.example/pool"
)

// A return made from seeds: server 0 gets a share, the others get seeds, and the servers go on as with any return.
func ExampleClient_MakeSeeded() {
	sheet, err := pool.NewSheet(pool.Choice(64), pool.Number(8))
	check(err)
	tables := openTwo(sheet, 1)
	workshop := pool.Client{Sheet: sheet, Servers: 2}
	messages, err := workshop.MakeSeeded(7, []uint32{63, 40})
	check(err)
	for own, message := range messages {
		fmt.Println("server", own, "gets", len(message), "bytes, a seed:", pool.IsSeedMessage(message))
	}
	pair, err := sheet.DrawPair(nil)
	check(err)
	judge(tables, 7, file(tables, messages, pair, pair))
	for _, table := range tables {
		check(table.Enter(7))
	}
	totals := join(tables, sheet)
	fmt.Println("accepted", totals.Accepted, totals.Lines[63:])
	// Output:
	// server 0 gets 898 bytes, a seed: false
	// server 1 gets 38 bytes, a seed: true
	// return 7 server 0 accepted true <nil>
	// return 7 server 1 accepted true <nil>
	// accepted 1 [{1 63 1} {2 0 40}]
}
