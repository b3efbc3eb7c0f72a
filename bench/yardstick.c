/* The plain machine: every advance scans all rules, and a full path is judged by the closure from nothing. bench/machine.h has the rest.
   Build: cc -O2 bench/yardstick.c -o /tmp/yardstick. bench/compare runs it beside `serve`. */
#include "machine.h"

static void begin_program(void) {}
static void begin_question(void) {}
static void decided(int l) { (void)l; }
static void undecided(int l) { (void)l; }

static int stable(void) {
  static char least[ATOMS + 1];
  memset(least, 0, sizeof least);
  int grown = 1;
  while (grown) {
    grown = 0;
    for (int r = 0; r < rulecount; r++) {
      const int *l = &pool[rules[r].start];
      if (!body_holds(&rules[r], least)) continue;
      if (rules[r].heads == 0 && !rules[r].choice) return 0;   /* a constraint whose body is in the least set and outside M: its body holds, or M is not stable anyway */
      for (int i = 0; i < rules[r].heads; i++)
        if (!least[l[i]] && (!rules[r].choice || value[l[i]] > 0)) least[l[i]] = 1, grown = 1;
    }
  }
  for (int a = 1; a <= n; a++) if (least[a] != (value[a] > 0)) return 0;
  return 1;
}

static int scan(int *breaker) {              /* whether a rule is broken in every set that agrees; else the first literal that would break one, or 0 */
  *breaker = 0;
  for (int r = 0; r < rulecount; r++) {
    if (rules[r].choice) continue;
    if (rules[r].weighted) {                 /* a constraint, or a plain head: in, undecided or out */
      int head = rules[r].heads ? pool[rules[r].start] : 0, t = head ? truth(head) : -1, lack, l;
      if (t > 0) continue;
      lack = lacks(&rules[r]);
      if (lack <= 0 && t < 0) return 1;
      l = lack <= 0 ? -head : t < 0 ? breaker_of(&rules[r], lack) : 0;
      if (!*breaker) *breaker = l;
      continue;
    }
    const int *l = &pool[rules[r].start], *mid = l + rules[r].heads, *stop = mid + rules[r].body;
    int open = 0;
    for (; l < stop; l++) {
      int c = l < mid ? -*l : *l, t = truth(c);
      if (t > 0) continue;
      if (t < 0 || (open && open != c)) goto next;
      open = c;
    }
    if (!open) return 1;
    if (!*breaker) *breaker = open;
  next:;
  }
  return 0;
}

static void advance(void) {
  int l;
  advances++;
  if (scan(&l)) { fail(); return; }
  if (len == n) { judge(); return; }
  int w = broken_wish();
  if (w >= 0) { blame(w); fail(); return; }
  if (l) { put(-l, 1); return; }
  for (int i = 0; i < wishedcount; i++) if (truth(wished[i]) == 0) { put(wished[i], 1); return; }
  for (int a = 1;; a++) if (value[a] == 0) { put(free_literal(a), 1); return; }
}
