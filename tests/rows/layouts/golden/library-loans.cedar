// Loans: as many as the card allows, and none while something is late.
permit(principal is Reader,action==Action::"borrow",resource is Book)
when{principal.loans<(if principal.card=="student" then 20 else 8)&&!principal.hasLate};
