// Interns neither begin nor end a list, whatever else allows it.
@id("interns") forbid(
  principal in Role::"intern",
  action in [
    Action::"makeList", // a new one
    Action::"dropList",
  ],
  resource
);
