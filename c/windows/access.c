/* SPDX-License-Identifier: MIT */
/* Reads and sets the owners and access lists of files. */
#include "access.h"

#include <aclapi.h>
#include <sddl.h>
#include <sodium.h>

/* The size of a buffer for an access list in the text form of Windows (SDDL). */
#define LIST_CHARACTERS 512

/* Returns the security identifier of the user as text, or NULL. LocalFree frees the text. */
static wchar_t *own_identifier(void)
{
    union {
        TOKEN_USER user;
        uint8_t bytes[SECURITY_MAX_SID_SIZE + sizeof(TOKEN_USER)];
    } information;
    wchar_t *text = NULL;
    HANDLE token;
    DWORD len;

    if (!OpenProcessToken(GetCurrentProcess(), TOKEN_QUERY, &token)) {
        return NULL;
    }
    if (GetTokenInformation(token, TokenUser, &information, sizeof information, &len)
        && !ConvertSidToStringSidW(information.user.User.Sid, &text)) {
        text = NULL;
    }
    CloseHandle(token);
    return text;
}

bool begin_own_access(struct own_access *own, bool is_directory)
{
    const wchar_t *inherited = is_directory ? L"OICI" : L"";
    wchar_t *user = own_identifier(), list[LIST_CHARACTERS];

    own->descriptor = NULL;
    if (user != NULL) {
        /* P: protected, so that nothing is inherited from the directory. FA: all access. SY: the system. */
        _snwprintf(list, LIST_CHARACTERS - 1, L"D:P(A;%ls;FA;;;%ls)(A;%ls;FA;;;SY)", inherited, user, inherited);
        list[LIST_CHARACTERS - 1] = 0;
        LocalFree(user);
        if (!ConvertStringSecurityDescriptorToSecurityDescriptorW(list, SDDL_REVISION_1, &own->descriptor, NULL)) {
            own->descriptor = NULL;
        }
    }
    own->attributes = (SECURITY_ATTRIBUTES) { sizeof own->attributes, own->descriptor, FALSE };
    errno = own->descriptor == NULL ? EPERM : 0;
    return own->descriptor != NULL;
}

void end_own_access(struct own_access *own)
{
    int saved_errno = errno;

    LocalFree(own->descriptor);
    errno = saved_errno;
}

uid_t owner_of(HANDLE handle)
{
    PSECURITY_DESCRIPTOR descriptor = NULL;
    PSID owner = NULL;
    uint8_t digest[crypto_generichash_BYTES_MIN];
    uid_t user = 0;

    if (GetSecurityInfo(handle, SE_FILE_OBJECT, OWNER_SECURITY_INFORMATION, &owner, NULL, NULL, NULL, &descriptor)
            == ERROR_SUCCESS && owner != NULL) {
        crypto_generichash(digest, sizeof digest, owner, GetLengthSid(owner), NULL, 0);
        memcpy(&user, digest, sizeof user);
    }
    LocalFree(descriptor);
    return user;
}

static bool set_list(HANDLE to, PACL list, SECURITY_INFORMATION protection)
{
    DWORD error = SetSecurityInfo(to, SE_FILE_OBJECT, DACL_SECURITY_INFORMATION | protection, NULL, NULL, list, NULL);

    errno = error == ERROR_SUCCESS ? 0 : errno_of(error);
    return error == ERROR_SUCCESS;
}

bool copy_access(HANDLE from, HANDLE to)
{
    PSECURITY_DESCRIPTOR descriptor = NULL;
    SECURITY_DESCRIPTOR_CONTROL control = 0;
    DWORD revision, error;
    PACL list = NULL;
    bool is_copied = false;

    error = GetSecurityInfo(from, SE_FILE_OBJECT, DACL_SECURITY_INFORMATION, NULL, NULL, &list, NULL, &descriptor);
    if (error != ERROR_SUCCESS) {
        errno = errno_of(error);
    } else if (!GetSecurityDescriptorControl(descriptor, &control, &revision)) {
        errno = errno_of(GetLastError());
    } else {
        is_copied = set_list(to, list, control & SE_DACL_PROTECTED ? PROTECTED_DACL_SECURITY_INFORMATION
                                                                   : UNPROTECTED_DACL_SECURITY_INFORMATION);
    }
    LocalFree(descriptor);
    return is_copied;
}

bool give_own_access(HANDLE to)
{
    struct own_access own;
    BOOL has_list, is_default;
    PACL list;
    bool is_given;

    if (!begin_own_access(&own, false)) {
        return false;
    }
    is_given = GetSecurityDescriptorDacl(own.descriptor, &has_list, &list, &is_default)
               && set_list(to, list, PROTECTED_DACL_SECURITY_INFORMATION);
    end_own_access(&own);
    return is_given;
}
