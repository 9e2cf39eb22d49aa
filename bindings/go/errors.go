// SPDX-License-Identifier: MIT

//go:build cgo

package minisign

// #include "archive.h"
// #include <minisign.h>
import "C"

// The errors of minisign.h, made by tools/bindings.py. Their messages are those of minisign_error_text.
const (
	ErrNotBegun                 = Error(C.MINISIGN_NOT_BEGUN)
	ErrAlreadyAsked             = Error(C.MINISIGN_ALREADY_ASKED)
	ErrNotAsked                 = Error(C.MINISIGN_NOT_ASKED)
	ErrBadAnswer                = Error(C.MINISIGN_BAD_ANSWER)
	ErrNoRoom                   = Error(C.MINISIGN_NO_ROOM)
	ErrBadLegacyFlag            = Error(C.MINISIGN_BAD_LEGACY_FLAG)
	ErrOutOfMemory              = Error(C.MINISIGN_OUT_OF_MEMORY)
	ErrNotUtf8                  = Error(C.MINISIGN_NOT_UTF8)
	ErrBadComment               = Error(C.MINISIGN_BAD_COMMENT)
	ErrBadPasswordFlag          = Error(C.MINISIGN_BAD_PASSWORD_FLAG)
	ErrUnreadableComment        = Error(C.MINISIGN_UNREADABLE_COMMENT)
	ErrNotDue                   = Error(C.MINISIGN_NOT_DUE)
	ErrBadOption                = Error(C.MINISIGN_BAD_OPTION)
	ErrBadNumbering             = Error(C.MINISIGN_BAD_NUMBERING)
	ErrKeyNotOpened             = Error(C.MINISIGN_KEY_NOT_OPENED)
	ErrMissingPublicKeyComment  = Error(C.MINISIGN_MISSING_PUBLIC_KEY_COMMENT)
	ErrMissingPublicKey         = Error(C.MINISIGN_MISSING_PUBLIC_KEY)
	ErrPublicKeyLength          = Error(C.MINISIGN_PUBLIC_KEY_LENGTH)
	ErrPublicKeyNotBase64       = Error(C.MINISIGN_PUBLIC_KEY_NOT_BASE64)
	ErrRecordTooShort           = Error(C.MINISIGN_RECORD_TOO_SHORT)
	ErrMissingUntrustedComment  = Error(C.MINISIGN_MISSING_UNTRUSTED_COMMENT)
	ErrMissingSignature         = Error(C.MINISIGN_MISSING_SIGNATURE)
	ErrMissingTrustedComment    = Error(C.MINISIGN_MISSING_TRUSTED_COMMENT)
	ErrMissingCommentSignature  = Error(C.MINISIGN_MISSING_COMMENT_SIGNATURE)
	ErrUntrustedCommentPrefix   = Error(C.MINISIGN_UNTRUSTED_COMMENT_PREFIX)
	ErrSignatureNotBase64       = Error(C.MINISIGN_SIGNATURE_NOT_BASE64)
	ErrTrustedCommentPrefix     = Error(C.MINISIGN_TRUSTED_COMMENT_PREFIX)
	ErrUnsupportedAlgorithm     = Error(C.MINISIGN_UNSUPPORTED_ALGORITHM)
	ErrDifferentKeyIds          = Error(C.MINISIGN_DIFFERENT_KEY_IDS)
	ErrLegacyNotAccepted        = Error(C.MINISIGN_LEGACY_NOT_ACCEPTED)
	ErrSignatureRefused         = Error(C.MINISIGN_SIGNATURE_REFUSED)
	ErrCommentSignatureRefused  = Error(C.MINISIGN_COMMENT_SIGNATURE_REFUSED)
	ErrMissingSecretKeyComment  = Error(C.MINISIGN_MISSING_SECRET_KEY_COMMENT)
	ErrMissingSecretKey         = Error(C.MINISIGN_MISSING_SECRET_KEY)
	ErrSecretKeyNotBase64       = Error(C.MINISIGN_SECRET_KEY_NOT_BASE64)
	ErrKeySealed                = Error(C.MINISIGN_KEY_SEALED)
	ErrKeyCorrupted             = Error(C.MINISIGN_KEY_CORRUPTED)
	ErrKeyNotSealed             = Error(C.MINISIGN_KEY_NOT_SEALED)
	ErrUnsupportedKeyDerivation = Error(C.MINISIGN_UNSUPPORTED_KEY_DERIVATION)
	ErrParametersTooHigh        = Error(C.MINISIGN_PARAMETERS_TOO_HIGH)
	ErrInvalidParameters        = Error(C.MINISIGN_INVALID_PARAMETERS)
	ErrWrongPassword            = Error(C.MINISIGN_WRONG_PASSWORD)
	ErrWorkTooHigh              = Error(C.MINISIGN_WORK_TOO_HIGH)
	ErrBarePublicKeyLength      = Error(C.MINISIGN_BARE_PUBLIC_KEY_LENGTH)
	ErrBarePublicKeyNotBase64   = Error(C.MINISIGN_BARE_PUBLIC_KEY_NOT_BASE64)
	ErrTargetInUse              = Error(C.MINISIGN_TARGET_IN_USE)
	ErrNoRecord                 = Error(C.MINISIGN_NO_RECORD)
	ErrDamagedRecord            = Error(C.MINISIGN_DAMAGED_RECORD)
	ErrOtherFile                = Error(C.MINISIGN_OTHER_FILE)
	ErrNoNumber                 = Error(C.MINISIGN_NO_NUMBER)
	ErrOlderUpdate              = Error(C.MINISIGN_OLDER_UPDATE)
	ErrDirectoryNotSynced       = Error(C.MINISIGN_DIRECTORY_NOT_SYNCED)
	ErrKeptByTimestamp          = Error(C.MINISIGN_KEPT_BY_TIMESTAMP)
	ErrKeptByVersion            = Error(C.MINISIGN_KEPT_BY_VERSION)
	ErrExpired                  = Error(C.MINISIGN_EXPIRED)
	ErrBadExpiry                = Error(C.MINISIGN_BAD_EXPIRY)
	ErrSameNumber               = Error(C.MINISIGN_SAME_NUMBER)
	ErrNoExpiry                 = Error(C.MINISIGN_NO_EXPIRY)
	ErrBadSize                  = Error(C.MINISIGN_BAD_SIZE)
	ErrOtherSize                = Error(C.MINISIGN_OTHER_SIZE)
	ErrOtherSignatureText       = Error(C.MINISIGN_OTHER_SIGNATURE_TEXT)
	ErrSignatureNotRead         = Error(C.MINISIGN_SIGNATURE_NOT_READ)
	ErrKeyNotRead               = Error(C.MINISIGN_KEY_NOT_READ)
	ErrReadingFailed            = Error(C.MINISIGN_READING_FAILED)
	ErrWritingFailed            = Error(C.MINISIGN_WRITING_FAILED)
	ErrRandomSourceFailed       = Error(C.MINISIGN_RANDOM_SOURCE_FAILED)
	ErrWeakEd25519              = Error(C.MINISIGN_WEAK_ED25519)
	ErrPublicKeyNotRead         = Error(C.MINISIGN_PUBLIC_KEY_NOT_READ)
	ErrEmptyPassword            = Error(C.MINISIGN_EMPTY_PASSWORD)
	ErrWeakSealing              = Error(C.MINISIGN_WEAK_SEALING)
	ErrListNotVerified          = Error(C.MINISIGN_LIST_NOT_VERIFIED)
	ErrOtherListText            = Error(C.MINISIGN_OTHER_LIST_TEXT)
	ErrBadHash                  = Error(C.MINISIGN_BAD_HASH)
	ErrEntryNotRead             = Error(C.MINISIGN_ENTRY_NOT_READ)
	ErrOtherList                = Error(C.MINISIGN_OTHER_LIST)
	ErrBadName                  = Error(C.MINISIGN_BAD_NAME)
	ErrMalformedLine            = Error(C.MINISIGN_MALFORMED_LINE)
	ErrNotListed                = Error(C.MINISIGN_NOT_LISTED)
	ErrListedTwice              = Error(C.MINISIGN_LISTED_TWICE)
	ErrDigestMismatch           = Error(C.MINISIGN_DIGEST_MISMATCH)
)

// Names are those of minisign.h, without MINISIGN_.
var names = map[Error]string{
	ErrNotBegun:                 "NOT_BEGUN",
	ErrAlreadyAsked:             "ALREADY_ASKED",
	ErrNotAsked:                 "NOT_ASKED",
	ErrBadAnswer:                "BAD_ANSWER",
	ErrNoRoom:                   "NO_ROOM",
	ErrBadLegacyFlag:            "BAD_LEGACY_FLAG",
	ErrOutOfMemory:              "OUT_OF_MEMORY",
	ErrNotUtf8:                  "NOT_UTF8",
	ErrBadComment:               "BAD_COMMENT",
	ErrBadPasswordFlag:          "BAD_PASSWORD_FLAG",
	ErrUnreadableComment:        "UNREADABLE_COMMENT",
	ErrNotDue:                   "NOT_DUE",
	ErrBadOption:                "BAD_OPTION",
	ErrBadNumbering:             "BAD_NUMBERING",
	ErrKeyNotOpened:             "KEY_NOT_OPENED",
	ErrMissingPublicKeyComment:  "MISSING_PUBLIC_KEY_COMMENT",
	ErrMissingPublicKey:         "MISSING_PUBLIC_KEY",
	ErrPublicKeyLength:          "PUBLIC_KEY_LENGTH",
	ErrPublicKeyNotBase64:       "PUBLIC_KEY_NOT_BASE64",
	ErrRecordTooShort:           "RECORD_TOO_SHORT",
	ErrMissingUntrustedComment:  "MISSING_UNTRUSTED_COMMENT",
	ErrMissingSignature:         "MISSING_SIGNATURE",
	ErrMissingTrustedComment:    "MISSING_TRUSTED_COMMENT",
	ErrMissingCommentSignature:  "MISSING_COMMENT_SIGNATURE",
	ErrUntrustedCommentPrefix:   "UNTRUSTED_COMMENT_PREFIX",
	ErrSignatureNotBase64:       "SIGNATURE_NOT_BASE64",
	ErrTrustedCommentPrefix:     "TRUSTED_COMMENT_PREFIX",
	ErrUnsupportedAlgorithm:     "UNSUPPORTED_ALGORITHM",
	ErrDifferentKeyIds:          "DIFFERENT_KEY_IDS",
	ErrLegacyNotAccepted:        "LEGACY_NOT_ACCEPTED",
	ErrSignatureRefused:         "SIGNATURE_REFUSED",
	ErrCommentSignatureRefused:  "COMMENT_SIGNATURE_REFUSED",
	ErrMissingSecretKeyComment:  "MISSING_SECRET_KEY_COMMENT",
	ErrMissingSecretKey:         "MISSING_SECRET_KEY",
	ErrSecretKeyNotBase64:       "SECRET_KEY_NOT_BASE64",
	ErrKeySealed:                "KEY_SEALED",
	ErrKeyCorrupted:             "KEY_CORRUPTED",
	ErrKeyNotSealed:             "KEY_NOT_SEALED",
	ErrUnsupportedKeyDerivation: "UNSUPPORTED_KEY_DERIVATION",
	ErrParametersTooHigh:        "PARAMETERS_TOO_HIGH",
	ErrInvalidParameters:        "INVALID_PARAMETERS",
	ErrWrongPassword:            "WRONG_PASSWORD",
	ErrWorkTooHigh:              "WORK_TOO_HIGH",
	ErrBarePublicKeyLength:      "BARE_PUBLIC_KEY_LENGTH",
	ErrBarePublicKeyNotBase64:   "BARE_PUBLIC_KEY_NOT_BASE64",
	ErrTargetInUse:              "TARGET_IN_USE",
	ErrNoRecord:                 "NO_RECORD",
	ErrDamagedRecord:            "DAMAGED_RECORD",
	ErrOtherFile:                "OTHER_FILE",
	ErrNoNumber:                 "NO_NUMBER",
	ErrOlderUpdate:              "OLDER_UPDATE",
	ErrDirectoryNotSynced:       "DIRECTORY_NOT_SYNCED",
	ErrKeptByTimestamp:          "KEPT_BY_TIMESTAMP",
	ErrKeptByVersion:            "KEPT_BY_VERSION",
	ErrExpired:                  "EXPIRED",
	ErrBadExpiry:                "BAD_EXPIRY",
	ErrSameNumber:               "SAME_NUMBER",
	ErrNoExpiry:                 "NO_EXPIRY",
	ErrBadSize:                  "BAD_SIZE",
	ErrOtherSize:                "OTHER_SIZE",
	ErrOtherSignatureText:       "OTHER_SIGNATURE_TEXT",
	ErrSignatureNotRead:         "SIGNATURE_NOT_READ",
	ErrKeyNotRead:               "KEY_NOT_READ",
	ErrReadingFailed:            "READING_FAILED",
	ErrWritingFailed:            "WRITING_FAILED",
	ErrRandomSourceFailed:       "RANDOM_SOURCE_FAILED",
	ErrWeakEd25519:              "WEAK_ED25519",
	ErrPublicKeyNotRead:         "PUBLIC_KEY_NOT_READ",
	ErrEmptyPassword:            "EMPTY_PASSWORD",
	ErrWeakSealing:              "WEAK_SEALING",
	ErrListNotVerified:          "LIST_NOT_VERIFIED",
	ErrOtherListText:            "OTHER_LIST_TEXT",
	ErrBadHash:                  "BAD_HASH",
	ErrEntryNotRead:             "ENTRY_NOT_READ",
	ErrOtherList:                "OTHER_LIST",
	ErrBadName:                  "BAD_NAME",
	ErrMalformedLine:            "MALFORMED_LINE",
	ErrNotListed:                "NOT_LISTED",
	ErrListedTwice:              "LISTED_TWICE",
	ErrDigestMismatch:           "DIGEST_MISMATCH",
}
