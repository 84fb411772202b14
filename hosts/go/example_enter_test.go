package pool_test

import (
	"errors"
	"fmt"

	"yimakohe.example/pool"
)

// Server 1 stops between verdict and entry. It goes on later from its stored table and enters what server 0 has entered: the totals
// are those of both.
func ExampleTable_Enter() {
	sheet, err := pool.NewSheet(pool.UpTo(200))
	check(err)
	tables := openTwo(sheet, 1)
	workshop := pool.Client{Sheet: sheet, Servers: 2}
	shares, err := workshop.Make(7, []uint32{30})
	check(err)
	pair := pool.Pair{R: 31415926, S: 27182818}
	judge(tables, 7, file(tables, shares, pair, pair))

	// Each server stores its table with the verdict and only then tells it. Server 0 has heard of both, and enters.
	stored, err := tables[1].MarshalBinary()
	check(err)
	entered := map[uint32]bool{7: tables[0].Enter(7) == nil}

	// Server 1 starts again, and asks server 0 what it has entered.
	tables[1] = new(pool.Table)
	check(tables[1].UnmarshalBinary(stored))
	for _, w := range tables[1].Waiting() {
		fmt.Println("return", w.ID, w.Awaits, "at server 1")
		if w.Awaits == pool.AwaitsEntry && entered[w.ID] {
			check(tables[1].Enter(w.ID))
		}
	}
	// Where it is not sure whether it has entered a return, it tries: nothing is added twice.
	fmt.Println("again, refused:", errors.Is(tables[1].Enter(7), pool.ErrStage))
	fmt.Printf("%+v\n", join(tables, sheet))
	// Output:
	// return 7 server 0 accepted true <nil>
	// return 7 server 1 accepted true <nil>
	// return 7 awaits entry at server 1
	// again, refused: true
	// {Accepted:1 Lines:[{Column:1 Option:0 Total:30}]}
}
