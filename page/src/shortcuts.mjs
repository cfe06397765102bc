// SPDX-License-Identifier: Apache-2.0
// The keys that work in each view: `/` goes to the filter, Escape to the packets.
import { filterBy, home } from './filtering.mjs';
import { state } from './state.mjs';
import { byId, targetOf } from './text.mjs';
import { select } from './views.mjs';

document.addEventListener('keydown', event => {
  if (state.isOffered)
    return;
  if (event.key === '/' && !targetOf(event).matches('input, textarea, select')) {
    event.preventDefault();
    if (state.view !== 'diagram')
      select('packets');
    byId('filter').focus();
    byId('filter').select();
  } else if (event.key === 'Escape' && !document.querySelector(':popover-open')) {
    // (a popover is closed by the browser)
    if (!byId('syntax').hidden)
      byId('syntax-button').click();
    else if (document.activeElement === byId('filter') && byId('filter').value)
      filterBy('');
    else
      select('packets');
    home().focus();
  }
});
