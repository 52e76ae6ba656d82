// A patient reads the own record, and nobody else's.
@id("patient")
permit(principal is Patient, action == Action::"readRecord", resource is Record) when { resource.patient == principal };

// Treatment opens a record to those who treat.
@id("treating")
permit(principal is Clinician, action in [Action::"readRecord", Action::"addNote"], resource is Record)
when { principal in resource.careTeam && context.purpose == "treatment" };
