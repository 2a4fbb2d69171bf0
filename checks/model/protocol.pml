/* The threads of a run: preparers, imposers, and the collector on the caller's thread.
   Each access to what threads share is a step of its own. In front of each part stand the functions that it is read
   from, as `functions` lists them; README.md says what is left out.

   Bounds:  S sheets, W sheets in a window, P preparers, K imposers, STEP sheets written before the window is told,
            BATCH sheets in a message at most (from 1 to 3).
   LAYOUT:  1 one page a sheet; 2 the same, last sheet first; 3 a booklet, two pages a sheet;
            4 the first sheet blank, page 0 on two sheets.
   Faults:  F_PREP F_SHELF F_FULL F_BLANK F_IMP F_PUSH F_SHOWN F_CHAN F_SINK F_START F_REST, or ALL of them.
            Each may strike at any of its points and any number of times.
   POLL:    who finds nothing looks again (for the search for endless runs); else it waits until a look could find
            something, which shows an endless run as an invalid end state.
   TURNS:   workers of a kind take turns.
   SPENT:   the memory of a message's texts is told apart, and goes back to the imposers; else each message has its own.
   BAD_...: a wrong variant. */

#ifndef S
#define S 3
#endif
#ifndef W
#define W 2
#endif
#ifndef P
#define P 2
#endif
#ifndef K
#define K 2
#endif
#ifndef STEP
#define STEP 1
#endif
#ifndef BATCH
#define BATCH 2
#endif
#ifndef LAYOUT
#define LAYOUT 1
#endif
#if S < W
#define CAP S
#else
#define CAP W
#endif
#define NOEND 255

/* NP pages; page p has NPL(p) places, the kth of them on sheet PL(p, k); NEED(s) slots of sheet s have a page. */
#if LAYOUT == 1
#define NP S
#define NPL(p) 1
#define PL(p, k) (p)
#define NEED(s) 1
#define PLACES_OF(j) ((S - (j) + P - 1) / P)
#define BLANKS 0
#elif LAYOUT == 2
#define NP S
#define NPL(p) 1
#define PL(p, k) (S - 1 - (p))
#define NEED(s) 1
#define PLACES_OF(j) ((S - (j) + P - 1) / P)
#define BLANKS 0
#elif LAYOUT == 3
#define NP (2 * S)
#define NPL(p) 1
#define PL(p, k) ((p) < S -> (p) : 2 * S - 1 - (p))
#define NEED(s) 2
#define PLACES_OF(j) ((2 * S - (j) + P - 1) / P)
#define BLANKS 0
#elif LAYOUT == 4
#define NP (S - 1)
#define NPL(p) ((p) == 0 -> 2 : 1)
#define PL(p, k) ((k) == 0 -> (p) + 1 : S - 1)
#define NEED(s) ((s) == 0 -> 0 : ((s) == S - 1 -> 2 : 1))
#define PLACES_OF(j) ((S - 1 - (j) + P - 1) / P + ((j) == 0 -> 1 : 0))
#define BLANKS 1
#endif

#ifdef ALL
#define F_PREP
#define F_SHELF
#define F_FULL
#define F_BLANK
#define F_IMP
#define F_PUSH
#define F_SHOWN
#define F_CHAN
#define F_SINK
#define F_START
#define F_REST
#endif

/* What preparer j of P may put: no more than its pages have places, and no more than there are sheets. It gets that of
   what room the run's pass has. */
#define PUTS_OF(j) (PLACES_OF(j) > S -> S : PLACES_OF(j))
#if defined(BAD_NO_ROOM)
#define GIVE_ROOM(j, r) r = 0
#elif defined(BAD_ROOM_ONE_LESS)
#define GIVE_ROOM(j, r) r = (PUTS_OF(j) < room_left -> PUTS_OF(j) : room_left) - 1; room_left = room_left - r
#else
#define GIVE_ROOM(j, r) r = (PUTS_OF(j) < room_left -> PUTS_OF(j) : room_left); room_left = room_left - r
#endif

/* A finished sheet is a byte: its number and 1 in the low half, the number of its text and 1 in the high half. A group
   is the sheets of one message: three such bytes, 0 where there is none. */
#define FINISHED(s, t) (16 * ((t) + 1) + (s) + 1)
#define SHEET(m) (((m) & 15) - 1)
#define TEXT(m) ((m) / 16 - 1)
#define MOST(a, b) ((a) > (b) -> (a) : (b))

/* last */
#define LAST(m, n, o) (MOST(MOST((m) & 15, (n) & 15), (o) & 15) - 1)

/* What threads share. Setup::new, channel_of, Shared::gather: channel, places and the queue of written sheets have room for a window. */
byte missing[S];
chan q = [S] of { byte };                /* Ready; what a pass may put is advanced in each pass's room */
#ifndef SPENT
chan c = [CAP] of { byte, byte, byte };  /* the channel of finished sheets, three in a message at most */
#else
chan c = [CAP] of { byte, byte, byte, byte };  /* and the number of their memory */
#endif
byte preparers_left = P;
byte imposers_left = K;
byte wnext;                      /* Window.next */
bool lifted;                     /* Window.lifted */
byte alive;                      /* threads that run; the scope waits for them */
bool oom;                        /* a worker answered AllocError */
#ifdef TURNS
bool turn_p, turn_i;
#endif

/* What the collector keeps. */
byte next;                       /* Progress.next */
bool halted;                     /* Progress.halted */
byte lying[3 * CAP];             /* ReorderBuffer.groups: group g is at 3 * g, with the nth of its sheets at 3 * g + n */
byte noted[CAP];                 /* ReorderBuffer.places: where the sheet lies that has this place, 3 * group + nth (ReorderBuffer::new) */

/* What is only watched. */
bool fault;                      /* something failed */
bool dead;                       /* the sink failed */
byte wrote;                      /* sheets that the sink took */
byte put_mask, taken_mask, sent_mask;
byte swept;

/* Window::new: the step is at most the window. Window::end, Window::next, Window::lift */
#define ENDNOW (lifted -> NOEND : wnext + W)
#define LIFT lifted = true

#define bit(s) (1 << (s))
#define FIRST(h) ((h) & 1 -> 0 : ((h) & 2 -> 1 : ((h) & 4 -> 2 : ((h) & 8 -> 3 : ((h) & 16 -> 4 : 99)))))

#ifdef SPENT
/* Memory of groups is advanced from 1. `there` has a bit for each that there is; there are never more than sheets. The
   texts of a group are what was last written to its memory, wherever the group lies. */
chan going = [CAP] of { byte };          /* RunInput.spent */
byte there;
byte text[3 * S];
byte memory_of[CAP];                     /* that of the group that lies there */

#define BYTES(memory, n) text[3 * ((memory) - 1) + (n)]
#define IS_FREE(memory) !(there & bit((memory) - 1))

/* Texts::clear */
#define CLEAR(memory) BYTES(memory, 0) = 0; BYTES(memory, 1) = 0; BYTES(memory, 2) = 0

/* A group is dropped. */
#define LET_GO(memory) CLEAR(memory); there = there & ~bit((memory) - 1); memory = 0

/* How many groups there are. */
#define IN_ALL ((there & 1) + ((there >> 1) & 1) + ((there >> 2) & 1) + ((there >> 3) & 1))
#endif

#ifdef TURNS
/* Baton::pass_if_due with shifts of one page or batch, and Baton::wait: who has slept for long goes on without a turn. */
inline go_on(turn, has)
{
	if :: has -> atomic { turn = false; has = false } :: else fi;
	if
	:: atomic { !turn -> turn = true; has = true }
#ifndef BAD_TURN_IS_LOCK
	:: atomic { turn -> skip }
#endif
	fi
}
/* Baton::end, Baton::give */
#define END_TURN(turn, has) if :: has -> atomic { turn = false; has = false } :: else fi
#define GIVE(turn) turn = false
#endif

/* RunInput::prepare, Shared::prepare_all, Shared::prepare_page. Each atomic has one access
   to what threads share, and what follows from it for the thread alone. */
proctype preparer(byte me; byte room)
{
	byte page = me;
	byte k;
	bool completes, back;
#ifdef BAD_MARK_IN_TWO_STEPS
	byte seen;
#endif
#ifdef TURNS
	bool has;
#endif
page_next:
	if
	:: page >= NP -> goto pages_done
	:: else
	fi;
#ifdef TURNS
	go_on(turn_p, has);
#endif
	/* Delivery::deliver: memory for the page, the answers or the shelf is refused before anything is marked; or
	   Shelf::put_as gives no receipt */
	if
	:: goto mark
#ifdef F_PREP
	:: atomic { fault = true; goto no_memory }
#endif
#ifdef F_SHELF
	:: atomic { fault = true; goto no_receipt }
#endif
	fi;
mark:
	/* Delivery::mark_places, mark_and_close, completes_sheet: one step of the table tells who completes a sheet */
#ifdef BAD_MARK_IN_TWO_STEPS
	seen = missing[PL(page, k)];
	atomic { missing[PL(page, k)] = seen - 1; completes = (seen == 1); seen = 0 };
#else
	atomic {
		assert(missing[PL(page, k)] > 0);
		missing[PL(page, k)] = missing[PL(page, k)] - 1;
		completes = (missing[PL(page, k)] == 0)
	};
#endif
#ifdef BAD_PUT_TWICE
	completes = (missing[PL(page, k)] == 0);         /* looks again, in place of taking the mark's answer */
#endif
	if
	:: completes ->
		/* hand_on_completed, Ready::put, may_put, room_after_put */
		atomic {
			completes = false;
			if
			:: room > 0 ->
				room--;
				assert(nfull(q));
				assert(!(put_mask & bit(PL(page, k))));
				put_mask = put_mask | bit(PL(page, k));
				q!PL(page, k)
			:: room == 0 -> back = true
#ifdef F_FULL
			:: fault = true; back = true
#endif
			fi
		}
	:: else
	fi;
	atomic {
		k++;
		if
		:: k < NPL(page) -> goto mark
		:: else -> k = 0
		fi;
		if
		:: !back -> goto delivered
		:: else -> back = false
#ifdef BAD_HANDED_BACK
			; goto delivered
#endif
		fi
	};
	LIFT;
	goto delivered;
no_receipt:
#ifndef BAD_SHELF
	LIFT;
#else
	skip;
#endif
delivered:
	page = page + P;
	goto page_next;

no_memory:
	oom = true;
#ifndef BAD_PREPARER_OOM
	LIFT;
#endif
#if defined(TURNS) && !defined(BAD_NO_GIVE)
	GIVE(turn_p);
#endif
#ifdef BAD_PREPARER_COUNT
	goto gone;
#else
	goto ended;
#endif
pages_done:
#ifdef TURNS
	END_TURN(turn_p, has);
#endif
ended:
	atomic { preparers_left--; page = 0; room = 0; alive--; goto over };
gone:
	atomic { page = 0; room = 0; alive-- };
over:
	skip
}

/* Where an imposer goes on behind what is its own. */
#define MORE 0                   /* for the next sheet of its batch */
#define QUEUE 1                  /* at the queue */
#define NOTHING 2                /* there is nothing to do but wait */
#define FULL 3                   /* its batch is full */
#define LIFTS 4                  /* a sheet isn't made, so the window is lifted */
#define ENDS 5                   /* there is no memory */

/* Texts::push: the text is written behind the others in the group's memory */
#ifdef SPENT
#define WRITE_TEXT(n, m) BYTES(memory, n) = m
#else
#define WRITE_TEXT(n, m) skip
#endif
inline add(m)
{
	if
	:: b0 == 0 -> b0 = m; WRITE_TEXT(0, m)
	:: b0 != 0 && b1 == 0 -> b1 = m; WRITE_TEXT(1, m)
	:: else -> b2 = m; WRITE_TEXT(2, m)
	fi
}

#ifdef SPENT
/* RunInput::impose_batch: for its first sheet, a group that was written,
   or a new one. If memory is refused for the sheet (F_IMP), `no_memory` lets the group go. In a window there are no more
   groups than sheets. */
inline take_memory()
{
	if
	:: finds == 0 ->
		if
		:: going?memory ->
#ifdef BAD_NOT_CLEARED
			b0 = BYTES(memory, 0); b1 = BYTES(memory, 1); b2 = BYTES(memory, 2)
#else
			CLEAR(memory)
#endif
		:: empty(going) ->
			memory = (IS_FREE(1) -> 1 : (IS_FREE(2) -> 2 : (IS_FREE(3) -> 3 : 4)));
			assert(memory <= S && IS_FREE(memory));
			there = there | bit(memory - 1);
			assert(lifted || IN_ALL <= CAP)
		fi
	:: else
	fi
}
#endif

/* RunInput::impose_into, Shared::impose_taken, is_complete, Imposition::impose. A look at a sheet that is complete
   always shows it so, and a window never goes back, so there is no step of its own for these. F_IMP: memory is refused
   for its text, for room in its batch or, if it is the first, for the batch; it was taken, and is lost with the imposer. */
inline impose_sheet()
{
#ifdef SPENT
	take_memory();
#endif
	none_left = false;
	finds = (finds == 0 -> 1 : finds);
#ifndef BAD_MARK_IN_TWO_STEPS
	assert(missing[s] == 0);
#endif
#ifndef BAD_PUSH
	assert(lifted || s < wnext + W);
#endif
	if
	:: add(FINISHED(s, s)); to = MORE
#ifdef F_IMP
	:: fault = true; to = ENDS
#endif
#ifdef F_SHOWN
	:: fault = true;
#if defined(BAD_NOT_SHOWN)
		to = MORE
#elif defined(BAD_NOT_SHOWN_IN_BATCH)
		to = (b0 == 0 -> LIFTS : MORE)
#else
		to = LIFTS
#endif
#endif
	fi;
	s = 0
}

/* Shared::find_sheet as far as the queue: SheetSet::take_first_before, Held::come_nearer, SheetSet::is_empty */
inline find_held()
{
	if
	:: held != 0 && FIRST(held) < end -> s = FIRST(held); held = held & ~bit(s); impose_sheet()
	:: else ->
		if
		:: looked_to != end && held != 0 -> to = NOTHING
		:: else -> to = QUEUE
		fi;
		looked_to = end
	fi
}

/* RunInput::impose_batch, RunInput::impose_more: further sheets, before the same end of the window, until the
   queue is asked, there is nothing, or the batch is full. Then on to where that leads. */
inline further()
{
	do
	:: to == MORE && finds > 0 && finds < BATCH -> finds++; find_held()
	:: to == MORE && finds >= BATCH -> to = FULL
	:: to == MORE && finds == 0 -> break
	:: to != MORE -> break
	od;
	if
	:: to == MORE -> end = 0; goto again             /* a sheet is held, and there is no batch */
	:: to == QUEUE -> to = 0; goto take
	:: to == NOTHING -> to = 0; goto nothing
	:: to == FULL -> to = 0; goto send
	:: to == LIFTS -> to = 0; goto not_made
	:: to == ENDS -> to = 0; goto no_memory
	fi
}

/* RunInput::impose, RunInput::impose_all, RunInput::impose_next */
proctype imposer()
{
	byte held;                       /* a bit for each sheet */
	byte looked_to, end, s, to;
	byte b0, b1, b2;                 /* its batch */
	byte finds;                      /* looks for sheets that the batch has had, with the first one */
	bool none_left;
#ifdef SPENT
	byte memory;                     /* that of its batch, or 0 */
#endif
#ifdef TURNS
	bool has;
#endif
again:
#ifdef TURNS
	go_on(turn_i, has);
#endif
#ifndef BAD_PREPARERS_READ_LATE
	none_left = (preparers_left == 0);
#endif
	/* Window::end: two loads */
	if
	:: atomic { lifted -> end = NOEND; find_held(); further() }
	:: !lifted -> atomic { end = wnext + W; find_held(); further() }
	fi;
take:
	/* Shared::find_sheet at the queue: Ready::take, SheetSet::insert */
	atomic {
		if
		:: q?s ->
			assert(!(taken_mask & bit(s)));
			taken_mask = taken_mask | bit(s);
			none_left = false;
			if
			:: s < end -> impose_sheet(); further()
			:: else ->
				if
				:: held = held | bit(s); s = 0; further()
#ifdef F_PUSH
				:: fault = true
#endif
				fi
			fi
		:: empty(q) -> goto nothing
		fi
	};
#ifndef BAD_PUSH
	LIFT;
#endif
	atomic { impose_sheet(); further() };
not_made:
	LIFT;
	atomic { further() };
nothing:
	/* of a batch, or at all */
	if
	:: finds == 0 -> goto wait
	:: else
	fi;
#ifdef BAD_BATCH_WAITS
	/* a batch that isn't full waits for more sheets, as long as there may be any */
	if
	:: preparers_left == 0 && held == 0 -> skip
	:: else ->
		atomic { finds--; end = 0 };
		(held != 0 && (FIRST(held) < ENDNOW || looked_to != ENDNOW)) || nempty(q) || (preparers_left == 0 && held == 0);
		if
		:: atomic { lifted -> end = NOEND; further() }
		:: !lifted -> atomic { end = wnext + W; further() }
		fi
	fi;
#endif
send:
	/* RunInput::send: nothing if no sheet of the batch was made */
	atomic {
		end = 0; finds = 0;
#ifdef BAD_LAST_OF_BATCH_LEFT
		if
		:: b1 != 0 -> b1 = 0
		:: else
		fi;
#endif
#ifdef BAD_NUMBERS_EXCHANGED
		if
		:: b1 != 0 -> s = b0; b0 = (b0 & 240) + (b1 & 15); b1 = (b1 & 240) + (s & 15); s = 0
		:: else
		fi;
#endif
		if
		:: b0 == 0 ->
#ifdef SPENT
			LET_GO(memory);
#endif
			goto again
		:: b0 != 0
#ifdef F_CHAN
		:: b0 != 0 -> fault = true; goto refused
#endif
		fi;
		if
		:: nfull(c) ->
			assert(!(sent_mask & bit(SHEET(b0))));
			sent_mask = sent_mask | bit(SHEET(b0));
			if
			:: b1 != 0 -> assert(!(sent_mask & bit(SHEET(b1)))); sent_mask = sent_mask | bit(SHEET(b1))
			:: else
			fi;
			if
			:: b2 != 0 -> assert(!(sent_mask & bit(SHEET(b2)))); sent_mask = sent_mask | bit(SHEET(b2))
			:: else
			fi;
#ifdef SPENT
			c!b0,b1,b2,memory; memory = 0;
#else
			c!b0,b1,b2;
#endif
			b0 = 0; b1 = 0; b2 = 0; goto again
		:: full(c) ->
#ifndef BAD_PUSH
			assert(lifted)                   /* a window's sheets have room */
#endif
		fi
	};
refused:
	/* the batch is dropped */
	atomic {
#ifdef SPENT
		LET_GO(memory);
#endif
#ifdef BAD_CHANNEL
		b0 = 0; b1 = 0; b2 = 0; goto again
#elif defined(BAD_CHANNEL_BATCH)
		if
		:: b1 != 0 -> b0 = 0; b1 = 0; b2 = 0; goto again
		:: else -> b0 = 0; b1 = 0; b2 = 0
		fi
#else
		b0 = 0; b1 = 0; b2 = 0
#endif
	};
	LIFT;
	goto again;
wait:
	end = 0;
#ifdef TURNS
	END_TURN(turn_i, has);
#endif
#ifdef BAD_PREPARERS_READ_LATE
	none_left = (preparers_left == 0);
#endif
	atomic {
		if
		:: none_left && held == 0 -> goto ended
		:: else -> none_left = false
		fi
	};
	/* Window::rest, Idling::next_nap: a nap ends by itself */
#ifndef POLL
	(held != 0 && (FIRST(held) < ENDNOW || looked_to != ENDNOW)) || nempty(q) || (preparers_left == 0 && held == 0);
#endif
	goto again;

no_memory:
	/* What the imposer holds, and its batch, are lost with it. */
	atomic {
#ifdef SPENT
		LET_GO(memory);
#endif
		held = 0; s = 0; end = 0; b0 = 0; b1 = 0; b2 = 0; finds = 0; oom = true
	};
#ifndef BAD_IMPOSER_OOM
	LIFT;
#endif
#ifdef TURNS
	GIVE(turn_i);
#endif
#ifdef BAD_IMPOSER_COUNT
	goto gone;
#endif
ended:
	atomic { imposers_left--; looked_to = 0; none_left = false; end = 0; alive--; goto over };
gone:
	atomic { looked_to = 0; none_left = false; end = 0; alive-- };
over:
	skip
}

/* write_all, write_text, write_in_pieces, advanced: the sink takes it, or fails. n is how many sheets, 0 for header and
   trailer. */
inline hand_to_sink(sheet, n)
{
	assert(!dead);
	assert(n == 0 || (sheet == wrote && !halted));
	if
	:: true -> wrote = wrote + n
#ifdef F_SINK
	:: fault = true; dead = true; halted = true
#endif
	fi
}

/* ReorderBuffer::place_of */
#define PLACE(s) ((s) % CAP)

/* The group of a sheet that lies at `at`, and its text. */
#define GROUP(at) ((at) / 3)
#ifdef SPENT
#define TEXT_AT(at) TEXT(BYTES(memory_of[GROUP(at)], (at) % 3))
#else
#define TEXT_AT(at) TEXT(lying[at])
#endif

/* ReorderBuffer::joined, Texts::joined: a sheet came if the group that its place names is there, and has it at this
   index. */
#ifndef BAD_NOT_COMPARED
#define HAS_COME(s) (SHEET(lying[noted[PLACE(s)]]) == (s))
#else
#define HAS_COME(s) (lying[noted[PLACE(s)]] != 0)
#endif

/* Whether a sheet lies where this place says, and waits. */
#define WAITS(p) (lying[noted[p]] != 0 && PLACE(SHEET(lying[noted[p]])) == (p) && SHEET(lying[noted[p]]) >= next)

/* ReorderBuffer::mark: what was noted is overwritten. In a window a sheet that waits keeps its place. */
inline mark_place(m, at)
{
	if
	:: m == 0
	:: else ->
#if !defined(BAD_PUSH)
		assert(lifted || !WAITS(PLACE(SHEET(m))));
#endif
		noted[PLACE(SHEET(m))] = at
	fi
}

/* ReorderBuffer::put, ReorderBuffer::mark_all: a group lies at the place of its last sheet. Whether it is free rests on the window. */
#ifndef BAD_PLACE_OF_FIRST
#define OWN_PLACE(m0, m1, m2) PLACE(LAST(m0, m1, m2))
#else
#define OWN_PLACE(m0, m1, m2) PLACE(SHEET(m0))
#endif
inline put_early()
{
	g = OWN_PLACE(m0, m1, m2);
	if
	:: lying[3 * g] == 0 -> skip
#if defined(BAD_EARLY_OVERWRITES)
	:: else -> skip
#else
	:: else ->
#if !defined(BAD_PUSH)
		assert(lifted);
#endif
#ifdef SPENT
		LET_GO(memory);
#endif
		m0 = 0; m1 = 0; m2 = 0
#endif
	fi;
	if
	:: m0 != 0 ->
		mark_place(m0, 3 * g); mark_place(m1, 3 * g + 1); mark_place(m2, 3 * g + 2);
		lying[3 * g] = m0; lying[3 * g + 1] = m1; lying[3 * g + 2] = m2;
#ifdef SPENT
		memory_of[g] = memory; memory = 0;
#endif
		m0 = 0; m1 = 0; m2 = 0
	:: else
	fi;
	g = 0
}

/* Written::give_back: what the queue refuses is let go. In a window there are no more groups than it has room for. */
inline give_back(which)
{
	if
#ifndef BAD_LET_GO
	:: nfull(going) -> going!which; which = 0
	:: full(going) -> assert(lifted); LET_GO(which)
#else
	:: LET_GO(which)
#endif
	fi
}

/* ReorderBuffer::take_written: the group that lies at the place of this sheet, if it is its last. */
#if defined(BAD_TAKEN_WITH_ANY)
#define OWN_GROUP(s) GROUP(noted[PLACE(s)])
#define IS_WRITTEN(g, s) true
#elif defined(BAD_PLACE_OF_FIRST)
#define OWN_GROUP(s) GROUP(noted[PLACE(s)])
#define IS_WRITTEN(g, s) (LAST(lying[3 * (g)], lying[3 * (g) + 1], lying[3 * (g) + 2]) == (s))
#else
#define OWN_GROUP(s) PLACE(s)
#define IS_WRITTEN(g, s) (LAST(lying[3 * (g)], lying[3 * (g) + 1], lying[3 * (g) + 2]) == (s))
#endif
inline take_written(sheet)
{
	g = OWN_GROUP(sheet);
	if
	:: IS_WRITTEN(g, sheet) ->
		lying[3 * g] = 0; lying[3 * g + 1] = 0; lying[3 * g + 2] = 0;
#if defined(SPENT) && !defined(BAD_GIVEN_BACK_EARLY)
		give_back(memory_of[g]);
#endif
		skip
	:: else
	fi;
	g = 0
}

/* write_early, write_sheets: as long as the next sheet came, it and those behind it in its group that follow it
   go to the sink by one call, or fewer of them if one has a long body (Texts::joined, neighbours). */
inline write_next_ones()
{
	do
	:: next < S && !halted && HAS_COME(next) ->
		at = noted[PLACE(next)];
		assert(TEXT_AT(at) == next);
		count = 1;
		do
		:: at % 3 + count < 3 && next + count < S && SHEET(lying[at + count]) == next + count ->
			if
			:: assert(TEXT_AT(at + count) == next + count); count++
			:: break
			fi
		:: else -> break
		od;
		hand_to_sink(next, count);
#if defined(SPENT) && defined(BAD_GIVEN_BACK_EARLY)
		/* when the first of its sheets is written, and it lies on */
		if
		:: at % 3 == 0 -> memory = memory_of[GROUP(at)]; give_back(memory)
		:: else
		fi;
#endif
		next = next + count;
#ifdef BAD_ASKED_FOR_FIRST
		take_written(next - count)
#else
		take_written(next - 1)
#endif
	:: else -> break
	od;
	at = 0; count = 0
}

init
{
	byte n, s, m0, m1, m2;
	byte room_left = BLANKS;                 /* of the run's pass: most_puts_in_all */
	bool none_left;
	bool gathered;
	byte g, at, count;
#ifdef SPENT
	byte memory;
#endif

	/* The table: run_plan, gather_plan, gather_objects. Ready::by_right, most_puts_in_all: the pass has room for all puts. */
	d_step {
		n = 0;
		do
		:: n < S -> missing[n] = NEED(n); n++
		:: else -> n = 0; break
		od;
		do
		:: n < P -> room_left = room_left + PUTS_OF(n); n++
		:: else -> n = 0; break
		od
	};
	/* Shared::begin, Shared::put_blank_sheets, by a pass that has all shares */
	do
	:: n < S ->
		if
		:: NEED(n) == 0 ->
			atomic {
				if
				:: true -> put_mask = put_mask | bit(n); q!n; room_left--
#ifdef F_BLANK
				:: fault = true;
#ifndef BAD_BLANK
					LIFT
#endif
#endif
				fi
			}
		:: else
		fi;
		n++
	:: else -> n = 0; break
	od;
	/* Shared::gather, run_workers, start_preparers, start_imposers; each preparer's room by
	   RunInput::split_preparer, Shared::room_for, most_puts, with_puts_of, Ready::split_with_room; an imposer has none
	   (RunInput::split, Ready::split) */
#ifdef F_START
	do
	:: n < P ->
		if
		:: atomic { GIVE_ROOM(n, s); alive++; run preparer(n, s); s = 0; n++ }
		:: fault = true; goto refused
		fi
	:: else -> n = 0; break
	od;
	do
	:: n < K ->
		if
		:: atomic { alive++; run imposer(); n++ }
		:: fault = true; goto refused
		fi
	:: else -> n = 0; break
	od;
#else
	/* A thread that starts late is one that is slow. */
	atomic {
		n = 0;
		do
		:: n < P -> GIVE_ROOM(n, s); alive++; run preparer(n, s); s = 0; n++
		:: else -> n = 0; break
		od;
		do
		:: n < K -> alive++; run imposer(); n++
		:: else -> n = 0; break
		od
	};
#endif

	/* RunInput::collect, take_turn */
	hand_to_sink(0, 0);
	do
	:: halted || next == S -> break
	:: else ->
#ifndef BAD_IMPOSERS_READ_LATE
		none_left = (imposers_left == 0);
#endif
		if
		:: atomic {
			/* a batch has come */
#ifdef SPENT
			c?m0,m1,m2,memory ->
#else
			c?m0,m1,m2 ->
#endif
			put_early();
			none_left = false;
#ifdef BAD_TOLD_EARLY
			wnext = next + 1;
#endif
			write_next_ones();
#ifdef BAD_GOES_ON_AFTER_FAIL
			halted = false;
#endif
			skip };
#ifndef BAD_TOLD_EARLY
			/* Window::come_to, Window::move_to */
			if
			:: next >= wnext + STEP -> wnext = next
			:: else
			fi
#endif
		:: empty(c) ->
#ifdef BAD_IMPOSERS_READ_LATE
			none_left = (imposers_left == 0);
#endif
			if
			:: none_left -> break
			:: else
			fi;
#ifndef BAD_NOT_TOLD_BEFORE_NAP
			wnext = next;                  /* Window::move_to */
#endif
			/* Window::rest */
#ifndef POLL
			nempty(c) || imposers_left == 0
#endif
		fi
	od;
	none_left = false;
#ifndef BAD_STOP
	LIFT;                              /* RunInput::stop */
#endif
	gathered = true;
	goto join;
refused:
	n = 0;
#ifndef BAD_STOP_REFUSED
	LIFT;                              /* RunInput::stop */
#endif
join:
	/* join_preparers, join_imposers, merge, RunInput::join; or the end of the scope (run_threads) */
	alive == 0;
	if
	:: !gathered -> assert(wrote == 0 && fault)
	:: gathered && oom -> assert(fault)
	:: gathered && !oom ->
		/* Shared::gather, conclude, write_rest, write_next */
		do
		:: !halted && next < S ->
			if
			:: HAS_COME(next) -> assert(TEXT_AT(noted[PLACE(next)]) == next)
			:: else ->
				swept++;
#ifdef F_REST
				if
				:: true -> skip
				:: fault = true; oom = true; goto done
				fi
#endif
			fi;
			hand_to_sink(next, 1);
			next++
		:: else -> break
		od;
		if
		:: !halted ->
			hand_to_sink(0, 0);
			assert(halted || (wrote == S && next == S))
		:: else -> assert(dead)
		fi
	fi;
done:
	assert(fault || (wrote == S && swept == 0 && !halted));
	skip
}
