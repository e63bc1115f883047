//! Stand-ins for the mesh types that slice.rs and snap.rs name: only what those two use.
//!
//! What shows in an answer is kept as mefikit has it: cells come by type number, then in the
//! order added; used nodes are sorted and without `usize::MAX`; unused rows go away and the
//! others keep their order. Fields and groups are left out.

use std::collections::BTreeMap;

use ndarray::{ArcArray2, Array2, ArrayView2};

#[derive(Clone, Copy, Debug, PartialEq, Eq)]
pub enum Dimension {
    D0,
    D1,
    D2,
    D3,
}

/// Cell types in mefikit's order, which gives each its number.
#[allow(clippy::upper_case_acronyms)]
#[repr(u8)]
#[derive(Clone, Copy, Debug, PartialEq, Eq, Hash, PartialOrd, Ord)]
pub enum ElementType {
    VERTEX,
    SEG2,
    SEG3,
    SEG4,
    PLINE,
    TRI3,
    TRI6,
    TRI7,
    QUAD4,
    QUAD8,
    QUAD9,
    PGON,
    TET4,
    TET10,
    HEX8,
    HEX21,
    WEDGE6,
    WEDGE15,
    PHED,
}

/// Each type at its number, with its node count; `None` for the types of any length.
const TYPES: [(ElementType, Option<usize>); 19] = {
    use ElementType::*;
    [
        (VERTEX, Some(1)),
        (SEG2, Some(2)),
        (SEG3, Some(3)),
        (SEG4, Some(4)),
        (PLINE, None),
        (TRI3, Some(3)),
        (TRI6, Some(6)),
        (TRI7, Some(7)),
        (QUAD4, Some(4)),
        (QUAD8, Some(8)),
        (QUAD9, Some(9)),
        (PGON, None),
        (TET4, Some(4)),
        (TET10, Some(10)),
        (HEX8, Some(8)),
        (HEX21, Some(21)),
        (WEDGE6, Some(6)),
        (WEDGE15, Some(15)),
        (PHED, None),
    ]
};

impl ElementType {
    pub fn of_number(number: u8) -> Option<Self> {
        TYPES.get(usize::from(number)).map(|entry| entry.0)
    }

    pub fn number(self) -> u8 {
        self as u8
    }

    pub fn num_nodes(self) -> Option<usize> {
        TYPES[usize::from(self.number())].1
    }

    pub fn dimension(self) -> Dimension {
        match self.number() {
            0 => Dimension::D0,
            1..=4 => Dimension::D1,
            5..=11 => Dimension::D2,
            _ => Dimension::D3,
        }
    }
}

/// A cell's type and its place among the cells of that type.
#[derive(Clone, Copy, Debug, PartialEq, Eq)]
pub struct ElementId(ElementType, usize);

pub trait ElementLike {
    fn element_type(&self) -> ElementType;
    fn connectivity(&self) -> &[usize];
    /// The coordinates of the node at position `local` of the connectivity.
    fn coord(&self, local: usize) -> &[f64];
    fn id(&self) -> ElementId;
}

/// A cell to read.
#[derive(Debug)]
pub struct Element<'a> {
    pub family: &'a usize,
    element_type: ElementType,
    index: usize,
    connectivity: &'a [usize],
    coords: ArrayView2<'a, f64>,
}

impl<'a> Element<'a> {
    /// A cell outside any mesh, over lent numbers.
    pub fn alone(
        element_type: ElementType,
        connectivity: &'a [usize],
        coords: ArrayView2<'a, f64>,
    ) -> Self {
        Element {
            family: &0,
            element_type,
            index: 0,
            connectivity,
            coords,
        }
    }
}

impl ElementLike for Element<'_> {
    fn element_type(&self) -> ElementType {
        self.element_type
    }

    fn connectivity(&self) -> &[usize] {
        self.connectivity
    }

    fn coord(&self, local: usize) -> &[f64] {
        let row = self.coords.row(self.connectivity[local]);
        row.to_slice().unwrap()
    }

    fn id(&self) -> ElementId {
        ElementId(self.element_type, self.index)
    }
}

/// A cell whose nodes may be renumbered.
pub struct ElementMut<'a> {
    pub connectivity: &'a mut [usize],
}

/// The cells of one type.
#[derive(Clone, Debug, Default)]
struct Block {
    cells: Vec<Vec<usize>>,
    families: Vec<usize>,
}

type Blocks = BTreeMap<ElementType, Block>;

/// A mesh that owns its cells.
#[derive(Clone, Debug)]
pub struct UMesh {
    pub(crate) coords: ArcArray2<f64>,
    blocks: Blocks,
}

/// A mesh to read.
#[derive(Clone, Copy, Debug)]
pub struct UMeshView<'a> {
    pub(crate) coords: ArrayView2<'a, f64>,
    blocks: &'a Blocks,
}

/// Fields are left out, so there is no value of their type.
pub enum NoFields {}

impl UMesh {
    pub fn new(coords: ArcArray2<f64>) -> Self {
        let blocks = Blocks::new();
        UMesh { coords, blocks }
    }

    pub fn view(&self) -> UMeshView<'_> {
        UMeshView {
            coords: self.coords.view(),
            blocks: &self.blocks,
        }
    }

    pub fn coords(&self) -> ArrayView2<'_, f64> {
        self.coords.view()
    }

    pub fn elements(&self) -> impl Iterator<Item = Element<'_>> {
        self.view().into_elements()
    }

    pub fn used_nodes(&self) -> Vec<usize> {
        self.view().used_nodes()
    }

    pub fn element_mut(&mut self, id: ElementId) -> ElementMut<'_> {
        let block = self.blocks.get_mut(&id.0).unwrap();
        let connectivity = &mut block.cells[id.1];
        ElementMut { connectivity }
    }

    pub fn add_element(
        &mut self,
        element_type: ElementType,
        connectivity: &[usize],
        family: Option<usize>,
    ) -> ElementId {
        if let Some(nodes) = element_type.num_nodes() {
            let given = connectivity.len();
            assert_eq!(given, nodes, "a {element_type:?} has {nodes} nodes");
        }
        let block = self.blocks.entry(element_type).or_default();
        block.cells.push(connectivity.to_vec());
        block.families.push(family.unwrap_or_default());
        ElementId(element_type, block.cells.len() - 1)
    }

    /// Adds a block of family 0; a block of that type that is there already stays.
    pub fn add_regular_block(
        &mut self,
        element_type: ElementType,
        connectivity: ArcArray2<usize>,
        _fields: Option<NoFields>,
    ) {
        let rows = connectivity.view();
        self.blocks.entry(element_type).or_insert_with(|| Block {
            cells: rows
                .rows()
                .map(|row| row.iter().copied().collect())
                .collect(),
            families: vec![0; rows.nrows()],
        });
    }

    /// The mesh with only the rows that cells use, renumbered.
    pub fn remove_unused_coords(&self) -> UMesh {
        let used = self.used_nodes();
        let rows = self.coords.view();
        let kept: Vec<f64> = used
            .iter()
            .flat_map(|&node| rows.row(node).iter().copied())
            .collect();
        let mut out = self.clone();
        out.coords = Array2::from_shape_vec((used.len(), rows.ncols()), kept)
            .unwrap()
            .into_shared();
        for block in out.blocks.values_mut() {
            for node in block.cells.iter_mut().flatten() {
                // Only a separator is not found, and it stays as it is.
                if let Ok(place) = used.binary_search(node) {
                    *node = place;
                }
            }
        }
        out
    }
}

impl<'a> UMeshView<'a> {
    pub fn coords(&self) -> ArrayView2<'a, f64> {
        self.coords
    }

    pub fn elements(&self) -> impl Iterator<Item = Element<'a>> {
        self.into_elements()
    }

    pub fn elements_of_dim(&self, dimension: Dimension) -> impl Iterator<Item = Element<'a>> {
        self.into_elements()
            .filter(move |cell| cell.element_type.dimension() == dimension)
    }

    /// The node numbers that cells use, sorted, each once.
    pub fn used_nodes(&self) -> Vec<usize> {
        let mut nodes: Vec<usize> = self
            .into_elements()
            .flat_map(|cell| cell.connectivity.iter().copied())
            .filter(|&node| node != usize::MAX)
            .collect();
        nodes.sort_unstable();
        nodes.dedup();
        nodes
    }

    fn into_elements(self) -> impl Iterator<Item = Element<'a>> {
        let coords = self.coords;
        self.blocks.iter().flat_map(move |(&element_type, block)| {
            let cells = block.cells.iter().zip(&block.families).enumerate();
            cells.map(move |(index, (connectivity, family))| Element {
                family,
                element_type,
                index,
                connectivity,
                coords,
            })
        })
    }
}

/// Lists of any length behind one another.
#[derive(Clone, Debug, Default)]
pub struct IndirectIndexOwned<T> {
    lists: Vec<Vec<T>>,
}

impl<T: Clone> IndirectIndexOwned<T> {
    pub fn new() -> Self {
        IndirectIndexOwned { lists: Vec::new() }
    }

    pub fn push(&mut self, list: &[T]) {
        self.lists.push(list.to_vec());
    }

    pub fn iter(&self) -> impl Iterator<Item = &[T]> {
        self.lists.iter().map(Vec::as_slice)
    }
}

impl<T> std::ops::Index<usize> for IndirectIndexOwned<T> {
    type Output = [T];

    fn index(&self, place: usize) -> &[T] {
        &self.lists[place]
    }
}
