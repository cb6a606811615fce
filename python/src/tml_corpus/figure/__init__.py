"""Pictures of a timeline, a placing or a clash, from one model and one layout, and what is written of them."""
