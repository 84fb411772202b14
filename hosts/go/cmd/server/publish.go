package main

import (
	"errors"
	"fmt"
	"io"

	"yimakohe.example/pool"
)

// publish prints the count of entered returns, each total with its column and option, and the line of each column of points with the
// column, determinant, slope and intercept, or "none".
func (s *server) publish(out io.Writer, totals pool.Totals) error {
	fmt.Fprintln(out, "accepted", totals.Accepted)
	for _, line := range totals.Lines {
		fmt.Fprintln(out, line.Column, line.Option, line.Total)
	}
	for k, column := range s.sheet.Columns() {
		if !column.IsPoint() {
			continue
		}
		fit, err := pool.FitLine(servers, s.sheet, uint32(s.returns), s.joined, uint32(k+1))
		switch {
		case errors.Is(err, pool.ErrNoLine):
			fmt.Fprintln(out, "line", k+1, "none")
		case err != nil:
			return err
		default:
			fmt.Fprintln(out, "line", k+1, fit.Determinant, fit.Slope, fit.Intercept)
		}
	}
	return nil
}
