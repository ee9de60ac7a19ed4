predicate list: verified
function length: verified
method m: verified
3 verified, 0 failed, 0 resting, 0 limited, 0 faults
