//go:build !cgo || !linux || !amd64

package fbcheck

// The library for C is linked in: this name isn't defined, so that the compiler says it.
var _ = fbcheck_needs_cgo_on_linux_amd64
