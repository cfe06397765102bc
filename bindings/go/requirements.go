// SPDX-License-Identifier: Apache-2.0

package davgyuti

import _ "davgyuti.example/davgyuti/internal/requirements" // where davgyuti can't be built, it doesn't compile, and says why
