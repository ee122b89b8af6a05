'use strict';
const slide = document.getElementById('slide'), at = document.getElementById('at');
const shown = () => { at.value = new Date(1000 * slide.value).toISOString().replace('.000', ''); };
slide?.addEventListener('input', shown);
slide?.addEventListener('change', () => { shown(); slide.form.requestSubmit(); });
document.addEventListener('keydown', e => { const key = e.target.matches('input, textarea, select') || e.ctrlKey || e.altKey || e.metaKey ? '' : e.key;
  if (key === '/') { e.preventDefault(); document.getElementById('q')?.focus(); } else if (key === '[' || key === ']') document.querySelector(key === '[' ? 'a[rel=prev]' : 'a[rel=next]')?.click(); });
