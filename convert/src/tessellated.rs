//! Tessellated items: triangulated and polygonal face sets.

use crate::fault::{fail, Result};
use crate::part21::{Arguments, Value};
use crate::polygons::cut_face;
use crate::shaper::{Shape, Shaper};
use crate::vector::{Point3, Polygon};

/// The points of a face set, perhaps by a list of places.
struct Corners {
    points: Vec<Point3>,
    places: Vec<usize>,
}

impl Corners {
    fn get(&self, index: usize) -> Result<Point3> {
        let own = if self.places.is_empty() {
            Some(index)
        } else {
            self.places.get(index.wrapping_sub(1)).copied()
        };
        let point = own.and_then(|place| self.points.get(place.wrapping_sub(1)));
        match point {
            Some(&point) => Ok(point),
            None => fail("an index of a face set that counts nothing"),
        }
    }

    fn ring(&self, values: &[Value<'_>]) -> Result<Polygon> {
        values
            .iter()
            .map(|value| self.get(value.index()?))
            .collect()
    }
}

fn places(values: &[Value<'_>]) -> Result<Vec<usize>> {
    // In the first edition of IFC4 a list of lists of normals stood here.
    let whole = values.iter().all(|value| matches!(value, Value::Number(_)));
    if !whole {
        return Ok(Vec::new());
    }
    values.iter().map(Value::index).collect()
}

impl<'a> Shaper<'a> {
    pub(crate) fn triangulated(
        &mut self,
        id: u64,
        values: &Arguments<'a>,
        out: &mut Shape,
    ) -> Result<()> {
        let corners = Corners {
            points: self.points(values.reference(0))?,
            places: places(values.list(4))?,
        };
        let rows = self.file.rows_of(id, 3)?;
        self.work.spend(rows.len() * 10)?;
        out.surface.reserve(rows.len());
        for row in rows {
            let triangle = row.iter().map(|&index| corners.get(index as usize));
            out.surface.push(triangle.collect::<Result<Polygon>>()?);
        }
        self.check_size(&out.surface)
    }

    pub(crate) fn polygonal(&mut self, values: &Arguments<'a>, out: &mut Shape) -> Result<()> {
        let corners = Corners {
            points: self.points(values.reference(0))?,
            places: places(values.list(3))?,
        };
        for face in values.references(2) {
            let parts = self.arguments(face)?;
            let mut rings = vec![corners.ring(parts.list(0))?];
            if self.keyword(face) == "IFCINDEXEDPOLYGONALFACEWITHVOIDS" {
                for hole in parts.list(1) {
                    rings.push(corners.ring(hole.list())?);
                }
            }
            let count: usize = rings.iter().map(Vec::len).sum();
            self.work.spend(count * count / 4)?;
            if !cut_face(&rings, &mut out.surface).map_err(|fault| fault.at(face))? {
                out.crossed += 1;
            }
            self.check_size(&out.surface)?;
        }
        Ok(())
    }
}
