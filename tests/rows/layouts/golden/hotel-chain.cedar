// A chain owns hotels, and a hotel has reservations. Who works for one of them
// works for what is below it.
@id("see-reservations")
permit(principal,action==Action::"seeReservation",resource is Reservation)
when{resource in principal.worksFor};

@id("change-reservations")
permit(principal,action in[Action::"book",Action::"cancel"],resource is Reservation)
when{resource in principal.worksFor&&principal.rank>=2&&resource.arrival>context.today};
