predicate list: verified
function length: verified
function first: verified
method single: verified
method prepend: verified
method two: verified
method replace: verified
7 verified, 0 failed, 0 resting, 0 limited, 0 faults
