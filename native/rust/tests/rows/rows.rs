//! The worked rows.

/// A worked row: commands, and the answer that each has to give.
pub struct Row {
    pub name: &'static str,
    pub script: &'static str,
    pub answers: &'static str,
}

/// Of shared flows.
pub const FLOWS: &[Row] = &[
    Row {
        name: "replay_gives_latest",
        script: "shared f 2 1 suspend ; try f 1 ; try f 2 ; try f 3 ; sub f a ; next a ; next a ; next a",
        answers: "ok ; accepted ; accepted ; accepted ; ok ; value 2 ; value 3 ; pending",
    },
    Row {
        name: "waiting_in_order",
        script: "shared f 0 1 suspend ; sub f a ; emit f e1 1 ; emit f e2 2 ; emit f e3 3 ; next a ; poll e3 ; \
                 poll e2 ; next a ; poll e3 ; next a",
        answers: "ok ; ok ; accepted ; waiting ; waiting ; value 1 ; waiting ; done ; value 2 ; done ; value 3",
    },
    Row {
        name: "hand_over",
        script: "shared f 0 0 suspend ; try f 1 ; sub f a ; try f 2 ; emit f e 3 ; next a ; poll e ; next a",
        answers: "ok ; accepted ; ok ; full ; waiting ; value 3 ; done ; pending",
    },
    Row {
        name: "drop_oldest_per_subscriber",
        script: "shared f 0 2 oldest ; sub f a ; sub f b ; try f 1 ; try f 2 ; next b ; next b ; try f 3 ; \
                 next a ; next a ; next b",
        answers: "ok ; ok ; ok ; accepted ; accepted ; value 1 ; value 2 ; accepted ; value 2 ; value 3 ; value 3",
    },
    Row {
        name: "drop_latest_keeps_cache",
        script: "shared f 1 0 latest ; sub f a ; try f 1 ; try f 2 ; cache f ; next a ; try f 3 ; cache f ; \
                 next a",
        answers: "ok ; ok ; accepted ; dropped ; [1] ; value 1 ; accepted ; [3] ; value 3",
    },
    Row {
        name: "cancel_frees_waiting",
        script: "shared f 1 0 suspend ; sub f a ; emit f e1 1 ; emit f e2 2 ; emit f e3 3 ; cancel a ; poll e2 ; \
                 poll e3 ; poll e1 ; cache f ; next a ; cancel a ; count f",
        answers: "ok ; ok ; accepted ; waiting ; waiting ; ok ; done ; done ; gone ; [3] ; closed ; closed ; 0",
    },
    Row {
        name: "reset_keeps_pending",
        script: "shared f 2 0 suspend ; try f 1 ; try f 2 ; sub f a ; reset f ; sub f b ; next a ; next a ; \
                 next b ; cache f ; count f",
        answers: "ok ; accepted ; accepted ; ok ; ok ; ok ; value 1 ; value 2 ; pending ; [] ; 2",
    },
    Row {
        name: "withdraw",
        script: "shared f 0 1 suspend ; sub f a ; emit f e1 1 ; emit f e2 2 ; emit f e3 3 ; withdraw e2 ; \
                 next a ; next a ; poll e2 ; withdraw e3 ; poll e3",
        answers: "ok ; ok ; accepted ; waiting ; waiting ; removed ; value 1 ; value 3 ; gone ; left ; gone",
    },
    Row {
        name: "refusals_at_making",
        script: "shared f 0 0 oldest ; shared f 65536 1 suspend ; shared f 65537 0 latest ; \
                 shared f 65536 0 latest",
        answers: "refused 2 ; refused 1 ; refused 1 ; ok",
    },
    Row {
        name: "late_subscriber_at_hand_over",
        script: "shared f 0 0 suspend ; sub f a ; emit f e 5 ; sub f b ; next b ; poll e ; cancel a ; poll e",
        answers: "ok ; ok ; waiting ; ok ; pending ; waiting ; ok ; done",
    },
    Row {
        name: "first_path",
        script: "shared f 0 2 suspend ; sub f a ; try f 1 ; try f 2 ; try f 3 ; next a ; try f 3 ; next a ; \
                 next a ; next a ; cancel a ; next a",
        answers: "ok ; ok ; accepted ; accepted ; full ; value 1 ; accepted ; value 2 ; value 3 ; pending ; ok ; \
                  closed",
    },
    Row {
        name: "places_full",
        script: "shared f 0 0 suspend ; sub f a1 ; sub f a2 ; sub f a3 ; sub f a4 ; sub f a5 ; sub f a6 ; \
                 sub f a7 ; sub f a8 ; sub f a9 ; cancel a1 ; sub f a9",
        answers: "ok ; ok ; ok ; ok ; ok ; ok ; ok ; ok ; ok ; refused 5 ; ok ; ok",
    },
    Row {
        name: "places_and_tickets_full",
        script: "shared f 0 0 suspend ; sub f a1 ; sub f a2 ; sub f a3 ; sub f a4 ; sub f a5 ; sub f a6 ; \
                 sub f a7 ; sub f a8 ; sub f a9 ; cancel a1 ; sub f a9 ; shared g 0 0 suspend ; sub g a ; \
                 emit g e1 1 ; emit g e2 2 ; emit g e3 3 ; emit g e4 4 ; emit g e5 5 ; emit g e6 6 ; \
                 emit g e7 7 ; emit g e8 8 ; emit g e9 9 ; next a ; poll e1 ; emit g e9 9",
        answers: "ok ; ok ; ok ; ok ; ok ; ok ; ok ; ok ; ok ; refused 5 ; ok ; ok ; ok ; ok ; waiting ; waiting ; \
                  waiting ; waiting ; waiting ; waiting ; waiting ; waiting ; refused 6 ; value 1 ; done ; waiting",
    },
    Row {
        name: "place_used_again",
        script: "shared f 1 0 suspend ; sub f a ; try f 1 ; next a ; try f 2 ; cancel a ; try f 3 ; sub f b ; \
                 next b ; next b",
        answers: "ok ; ok ; accepted ; value 1 ; accepted ; ok ; accepted ; ok ; value 3 ; pending",
    },
    Row {
        name: "drop_latest_emit",
        script: "shared f 0 1 latest ; sub f a ; emit f e1 1 ; emit f e2 2 ; poll e2 ; next a ; next a",
        answers: "ok ; ok ; accepted ; dropped ; gone ; value 1 ; pending",
    },
    Row {
        name: "reset_under_drop_oldest",
        script: "shared f 1 1 oldest ; sub f a ; try f 1 ; try f 2 ; reset f ; try f 3 ; cache f ; next a ; \
                 next a",
        answers: "ok ; ok ; accepted ; accepted ; ok ; accepted ; [3] ; value 2 ; value 3",
    },
    Row {
        name: "ring_over_capacity",
        script: "shared f 1 2 oldest ; sub f a ; try f 1 ; try f 2 ; try f 3 ; try f 4 ; try f 5 ; cache f ; \
                 sub f b ; next a ; next a ; next a ; next a ; next b",
        answers: "ok ; ok ; accepted ; accepted ; accepted ; accepted ; accepted ; [5] ; ok ; value 3 ; value 4 ; \
                  value 5 ; pending ; value 5",
    },
];

/// Of shared flows with preludes, which a lane doesn't have.
pub const PRELUDES: &[Row] = &[
    Row {
        name: "prelude_first",
        script: "shared f 1 1 suspend ; try f 1 ; sub f a with 8,9 ; try f 2 ; try f 3 ; next a ; try f 3 ; \
                 next a ; next a ; next a ; next a",
        answers: "ok ; accepted ; ok ; accepted ; full ; value 8 ; full ; value 9 ; value 1 ; value 2 ; pending",
    },
    Row {
        name: "prelude_at_hand_over",
        script: "shared f 0 0 suspend ; sub f a with 5 ; emit f e 1 ; poll e ; next a ; poll e ; next a ; poll e",
        answers: "ok ; ok ; waiting ; waiting ; value 5 ; waiting ; value 1 ; done",
    },
    Row {
        name: "prelude_survives_drop",
        script: "shared f 0 1 oldest ; sub f a with 5 ; try f 1 ; try f 2 ; next a ; next a ; next a",
        answers: "ok ; ok ; accepted ; accepted ; value 5 ; value 2 ; pending",
    },
    Row {
        name: "prelude_limit",
        script: "shared f 0 0 suspend ; sub f a with 1,2,3,4,5,6,7,8,9,10,11,12,13,14,15,16,17 ; \
                 sub f a with 1,2,3,4,5,6,7,8,9,10,11,12,13,14,15,16 ; next a ; cancel a ; next a",
        answers: "ok ; refused 10 ; ok ; value 1 ; ok ; closed",
    },
];

/// Of state flows.
pub const STATES: &[Row] = &[
    Row {
        name: "state_conflates",
        script: "state s 0 ; collect s c ; next c ; set s 1 ; set s 1 ; set s 2 ; next c ; set s 3 ; set s 2 ; \
                 next c ; cas s 2 2 ; cas s 9 4 ; cas s 2 5 ; value s",
        answers: "ok ; ok ; value 0 ; ok ; ok ; ok ; value 2 ; ok ; ok ; pending ; true ; false ; true ; value 5",
    },
    Row {
        name: "seats_full",
        script: "state s 0 ; collect s c1 ; collect s c2 ; collect s c3 ; collect s c4 ; collect s c5 ; \
                 collect s c6 ; collect s c7 ; collect s c8 ; collect s c9 ; count s ; cancel c1 ; collect s c9 ; \
                 next c9 ; next c1 ; cancel c1",
        answers: "ok ; ok ; ok ; ok ; ok ; ok ; ok ; ok ; ok ; refused 5 ; 8 ; ok ; ok ; value 0 ; closed ; closed",
    },
];
