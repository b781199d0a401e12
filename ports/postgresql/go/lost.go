package router

import (
	"database/sql"
	"database/sql/driver"
	"errors"
	"io"
	"net"
)

// isLost tells whether an error without SQLSTATE is that of a connection.
func isLost(err error) bool {
	var network net.Error
	for _, it := range []error{driver.ErrBadConn, io.EOF, io.ErrUnexpectedEOF, sql.ErrConnDone} {
		if errors.Is(err, it) {
			return true
		}
	}
	return errors.As(err, &network)
}
