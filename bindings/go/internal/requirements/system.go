// SPDX-License-Identifier: Apache-2.0

//go:build !(amd64 && (linux || freebsd || darwin || windows)) && !(arm64 && (linux || freebsd || darwin))

package requirements

var _ = davgyuti_has_no_text_for_this_system__only_for_Linux_Android_FreeBSD_macOS_iOS_on_amd64_and_arm64__Windows_on_amd64
