package pool_test

import (
	"errors"
	"fmt"

	"yimakohe.example/pool"
)

// The keeper of server 1 types r wrongly. Both servers refuse round one and drop the return; the workshop makes it anew, under a
// new id, and both take it with one new pair.
func ExampleTable_RoundOne() {
	sheet, err := pool.NewSheet(pool.UpTo(200))
	check(err)
	tables := openTwo(sheet, 1)
	workshop := pool.Client{Sheet: sheet, Servers: 2}

	shares, err := workshop.Make(7, []uint32{30})
	check(err)
	ones := file(tables, shares, pool.Pair{R: 31415926, S: 27182818}, pool.Pair{R: 31415962, S: 27182818})
	for own, table := range tables {
		if _, err := table.RoundOne(7, ones); errors.Is(err, pool.ErrUnequal) {
			fmt.Printf("server %d drops return 7: %v\n", own, table.Drop(7))
		}
	}
	for _, one := range ones {
		server, pair, _ := pool.RoundOnePair(one)
		fmt.Printf("server %d has %+v\n", server, pair)
	}

	shares, err = workshop.Make(8, []uint32{30})
	check(err)
	pair := pool.Pair{R: 16180339, S: 14142135}
	judge(tables, 8, file(tables, shares, pair, pair))
	for _, table := range tables {
		check(table.Enter(8))
	}
	fmt.Printf("%+v\n", join(tables, sheet))
	// Output:
	// server 0 drops return 7: <nil>
	// server 1 drops return 7: <nil>
	// server 1 has {R:31415962 S:27182818}
	// server 0 has {R:31415926 S:27182818}
	// return 8 server 0 accepted true <nil>
	// return 8 server 1 accepted true <nil>
	// {Accepted:1 Lines:[{Column:1 Option:0 Total:30}]}
}
