// SPDX-License-Identifier: Apache-2.0
// The page: each of these modules has one of its tasks, and all show the state.
import { openLink } from './opening.mjs';
import { change } from './state.mjs';
import './details.mjs';
import './filtering.mjs';
import './missing.mjs';
import './packets.mjs';
import './saving.mjs';
import './shortcuts.mjs';
import './views.mjs';

change();
openLink();
