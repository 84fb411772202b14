package pool

// The header and the archive of this repository. Go does not notice when they are replaced: build with -a then. In a copy that
// hosts/go/vendor makes, another link.go names those of the copy, and Go notices.

// #cgo CFLAGS: -I${SRCDIR}/../../include
// #cgo LDFLAGS: ${SRCDIR}/../../target/staticlib/libpool.a
import "C"
