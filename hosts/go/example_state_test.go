package pool_test

import (
	"errors"
	"fmt"

	"yimakohe.example/pool"
)

// A keeper's program tells how far the table is, and which returns wait and what for.
func ExampleTable_State() {
	sheet, err := pool.NewSheet(pool.YesNo())
	check(err)
	tables := openTwo(sheet, 20)
	workshop := pool.Client{Sheet: sheet, Servers: 2}
	shares, err := workshop.Make(7, []uint32{1})
	check(err)
	pair, err := sheet.DrawPair(nil)
	check(err)
	file(tables, shares, pair, pair)

	state, err := tables[0].State()
	check(err)
	fmt.Println(state)
	fmt.Println("closed:", state.Closed, "missing:", state.Least-state.Entered)
	for _, w := range tables[0].Waiting() {
		fmt.Println("return", w.ID, w.Awaits)
	}
	// Output:
	// server 0 of 2, open: 0 of at most 100 returns decided, 0 entered of at least 20, 1 waiting
	// closed: false missing: 20
	// return 7 awaits round one
}

// A sheet that came as bytes is printed, and a form is laid out by its columns.
func ExampleSheet_Columns() {
	sheet, err := pool.ReadSheet([]byte{17, 18, 4, 20, 200, 0, 0, 0, 21, 6})
	check(err)
	fmt.Println(sheet)
	for _, column := range sheet.Columns() {
		switch column.Kind() {
		case pool.KindYesNo:
			fmt.Println("a box to tick")
		case pool.KindChoice:
			fmt.Println("a list of", column.Size())
		case pool.KindPoint:
			fmt.Println("two fields of", column.Size(), "bits")
		default:
			fmt.Println("a field from 0 to", column.Largest())
		}
	}
	// Output:
	// 1: yes/no, 2: choice of 4, 3: number up to 200, 4: point of 6 bits
	// a box to tick
	// a list of 4
	// a field from 0 to 200
	// two fields of 6 bits
}

// Server 0 enters return 0 where server 1 enters return 1: no returns give such totals, and nothing is published.
func ExampleJoin() {
	sheet, err := pool.NewSheet(pool.UpTo(200))
	check(err)
	tables := openTwo(sheet, 1)
	workshop := pool.Client{Sheet: sheet, Servers: 2}
	for id := uint32(0); id < 2; id++ {
		shares, err := workshop.Make(id, []uint32{30})
		check(err)
		pair, err := sheet.DrawPair(nil)
		check(err)
		judge(tables, id, file(tables, shares, pair, pair))
	}
	var messages [2][]byte
	for own, table := range tables {
		check(table.Enter(uint32(own)))
		check(table.Drop(uint32(1 - own)))
		messages[own], err = table.Close()
		check(err)
	}
	_, err = pool.Join(2, sheet, 100, messages[:])
	fmt.Println("went apart:", errors.Is(err, pool.ErrApart))
	// Output:
	// return 0 server 0 accepted true <nil>
	// return 0 server 1 accepted true <nil>
	// return 1 server 0 accepted true <nil>
	// return 1 server 1 accepted true <nil>
	// went apart: true
}

// An error says what was refused and what to do. A program tells refusals apart by their names, or by the number.
func ExampleRefusal() {
	_, err := pool.NewSheet(pool.Choice(65))
	fmt.Println(errors.Is(err, pool.ErrLimit))
	var refusal pool.Refusal
	if errors.As(err, &refusal) {
		fmt.Println(uint32(refusal))
	}
	// Output:
	// true
	// 2
}
