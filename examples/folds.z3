predicate list: verified
method push: verified
method first: verified
method grow: verified
method closed: failed at 48:3 F02 (sat)
predicate positive: failed at 54:3 F02 (sat)
method trusting: rests on predicate positive
4 verified, 2 failed, 1 resting, 0 limited, 0 faults
