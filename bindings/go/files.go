// SPDX-License-Identifier: MIT

//go:build cgo

package minisign

import (
	"errors"
	"os"
	"path/filepath"
	"runtime"
	"syscall"
)

// WriteNew creates a file that only its owner can read and write, such as a secret key file. Its mode is 0600, whatever
// the umask is. The file and its directory are synced.
//
// If the file exists, WriteNew returns an error for which errors.Is(err, os.ErrExist) is true, and the file is unchanged.
// After any other error there is no file. On Windows, which has no file modes, the file inherits the permissions of its
// directory, so choose a directory that only its owner can read.
func WriteNew(file string, text []byte) error {
	newFile, err := os.OpenFile(file, os.O_WRONLY|os.O_CREATE|os.O_EXCL, 0o600)
	if err != nil {
		return err
	}
	if err = writeSecret(newFile, text); err == nil {
		err = syncDirectory(filepath.Dir(file))
	}
	if err != nil {
		os.Remove(file)
	}
	return err
}

// writeSecret writes text to a new file that only its owner can read, syncs it, and closes it.
func writeSecret(file *os.File, text []byte) error {
	err := allowOwnerOnly(file)
	if err == nil {
		_, err = file.Write(text)
	}
	if err == nil {
		err = file.Sync()
	}
	if closeErr := file.Close(); err == nil {
		err = closeErr
	}
	return err
}

// allowOwnerOnly sets the mode 0600 if the file has another mode, because a umask can also remove permissions of the owner.
// A file that has the mode is left alone, because some file systems reject fchmod.
func allowOwnerOnly(file *os.File) error {
	info, err := file.Stat()
	if err != nil || info.Mode()&0o677 == 0o600 {
		return err
	}
	return file.Chmod(0o600)
}

// syncDirectory syncs a directory, so that a new file survives a crash. It does nothing on Windows, or if the directory
// cannot be opened or does not support fsync (EINVAL).
func syncDirectory(name string) error {
	directory, err := os.Open(name)
	if err != nil || runtime.GOOS == "windows" {
		return nil
	}
	defer directory.Close()
	if err = directory.Sync(); errors.Is(err, syscall.EINVAL) {
		return nil
	}
	return err
}
